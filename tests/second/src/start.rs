//! Start bytes (#103): their reader and their writer.

use crate::bytes::{fill_words, words_of, ByteReader};
use crate::limits::{number, refuse, Outcome};
use crate::machine::Start;
use crate::program::Program;

/// The bytes of a rank's map, which is one big-endian number with bit a for cell a.
const MAP_BYTES: usize = 8;

/// The start that these bytes say for a program; no bytes at all mean that all is 0.
pub fn start_of(program: &Program, bytes: &[u8]) -> Outcome<Start> {
    let mut start = Start::zero(program);
    if bytes.is_empty() {
        return Ok(start);
    }
    let mut reader = ByteReader::new(bytes, number::START);
    for rank in &mut start.0 {
        read_cells(&mut reader, &mut rank.cells)?;
    }
    reader.finish()?;
    Ok(start)
}

/// Reads a rank's map and then a value for each bit that stands, cells rising; a listed 0 is
/// refused.
fn read_cells(reader: &mut ByteReader, cells: &mut [u16]) -> Outcome<()> {
    let map = read_map(reader, cells.len())?;
    for (cell, value) in cells.iter_mut().enumerate() {
        if stands(map, cell) {
            *value = reader.word_within(1..=65_535, number::START)? as u16;
        }
    }
    Ok(())
}

/// Reads a map, which is one field; a bit for a cell A or above is refused at its first byte.
fn read_map(reader: &mut ByteReader, cells: usize) -> Outcome<u64> {
    let place = reader.place();
    let mut map = 0;
    for _ in 0..MAP_BYTES {
        map = map << 8 | u64::from(reader.byte()?);
    }
    if (cells..8 * MAP_BYTES).any(|cell| stands(map, cell)) {
        return refuse(number::START, place);
    }
    Ok(map)
}

/// Whether a cell's bit stands in a map.
fn stands(map: u64, cell: usize) -> bool {
    map >> cell & 1 == 1
}

/// The bytes of a start's cells; the maps always stand, also if all is 0.
pub fn start_bytes(start: &Start) -> Vec<u8> {
    let mut bytes = Vec::new();
    for rank in &start.0 {
        let listed = || (0..rank.cells.len()).filter(|&cell| rank.cells[cell] != 0);
        let map: u64 = listed().map(|cell| 1 << cell).sum();
        bytes.extend(map.to_be_bytes());
        bytes.extend(listed().flat_map(|cell| rank.cells[cell].to_be_bytes()));
    }
    bytes
}

/// The shortest bytes of a start's cells: none if all is 0.
pub fn shortest_bytes(start: &Start) -> Vec<u8> {
    if start.cells().iter().all(|&value| value == 0) {
        return Vec::new();
    }
    start_bytes(start)
}

/// Writes the start bytes of a cell list into lent memory and gives their length. The list has
/// entries as the check fills it; a list too short, then memory too short, is 15.
pub fn write_start(program: &[u8], cells: &[u16], memory: &mut [u8]) -> Outcome<usize> {
    let program = Program::read(program)?;
    let entries = program.ranks * program.cells;
    if cells.len() < entries {
        return refuse(number::MEMORY_SHORT, entries);
    }
    let bytes = start_bytes(&Start::with_cells(&program, cells));
    if memory.len() < bytes.len() {
        return refuse(number::MEMORY_SHORT, bytes.len());
    }
    memory[..bytes.len()].copy_from_slice(&bytes);
    Ok(bytes.len())
}

/// The writer of start bytes with the cell list as big-endian bytes, two an entry; an odd last byte
/// is never used.
pub fn write_start_of_bytes(program: &[u8], cells: &[u8], memory: &mut [u8]) -> Outcome<usize> {
    write_start(program, &words_of(cells), memory)
}

/// The cells that start bytes say, for a list of so many entries: 1 to 3, then 19, then 15.
fn fitting_cells(program: &[u8], start: &[u8], entries: usize) -> Outcome<Vec<u16>> {
    let program = Program::read(program)?;
    let cells = start_of(&program, start)?.cells();
    if entries < cells.len() {
        return refuse(number::MEMORY_SHORT, cells.len());
    }
    Ok(cells)
}

/// Reads start bytes, fills the first N × A entries of a cell list, and gives their count.
pub fn read_start(program: &[u8], start: &[u8], cells: &mut [u16]) -> Outcome<usize> {
    let read = fitting_cells(program, start, cells.len())?;
    cells[..read.len()].copy_from_slice(&read);
    Ok(read.len())
}

/// The reader of start bytes with the cell list as big-endian bytes, two an entry; an odd last byte
/// is never used.
pub fn read_start_to_bytes(program: &[u8], start: &[u8], cells: &mut [u8]) -> Outcome<usize> {
    let read = fitting_cells(program, start, cells.len() / 2)?;
    fill_words(cells, &read);
    Ok(read.len())
}
