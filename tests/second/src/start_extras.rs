//! Comparing a subject's writer and reader of start bytes with what is right: what they tell, and
//! every lent byte, with lists and memory of many lengths.

use crate::corpus::{to_hex, CheckCase, StartReadCase, StartWriteCase};
use crate::extras::{fitted, lengths, right, told, Called, Extras, Seen, Tally, Told, DONE};
use crate::limits::{number, Refusal};
use crate::start::{read_start_to_bytes, write_start_of_bytes};

/// How the writer of start bytes is called in what is printed.
pub const START_WRITER: &str = "start writer";
/// How the reader of start bytes is called in what is printed.
pub const START_READER: &str = "start reader";
/// What stands in an odd last byte that is never used.
const ODD: u8 = 0xA7;

/// The second program's writer of start bytes, told as the library tells it.
pub fn start_written(program: &[u8], cells: &[u8], memory: &mut [u8]) -> Told {
    told(write_start_of_bytes(program, cells, memory))
}

/// The second program's reader of start bytes, told as the library tells it.
pub fn start_read(program: &[u8], start: &[u8], cells: &mut [u8]) -> Told {
    told(read_start_to_bytes(program, start, cells))
}

/// The bytes of a list's entries.
fn bytes_of(entries: &[u16]) -> Vec<u8> {
    entries
        .iter()
        .flat_map(|entry| entry.to_be_bytes())
        .collect()
}

/// N × A by the first two bytes of a program that can be read.
fn cell_count(program: &[u8]) -> usize {
    usize::from(program[0]) * usize::from(program[1])
}

/// Has a subject read the start of a case of the check, with the case's cell list, and write its
/// last cells, if it has any, into memory that is just long enough.
pub fn compare_starts_of(
    subject: &Extras,
    case: &CheckCase,
    tally: &mut Tally,
) -> Result<(), String> {
    let (program, start) = (case.program.clone(), case.start.clone());
    let read = StartReadCase::answered(String::new(), program, start, case.cell_entries);
    compare_read(subject, &read, 2 * case.cell_entries, tally)?;
    if case.cells.is_empty() {
        return Ok(());
    }
    let (program, cells) = (case.program.clone(), case.cells.clone());
    let most = 8 * cells.len() + 2 * cells.len();
    let written = StartWriteCase::answered(String::new(), program, cells, most);
    let needed = written.answer.as_ref().map_or(0, Vec::len);
    compare_written(subject, &written, &bytes_of(&case.cells), needed, tally)
}

/// Compares a writer of start bytes with a case: with the case's list and with an odd byte after it,
/// each with memory of many lengths, and with lists that are too short.
pub fn compare_start_writer(
    subject: &Extras,
    case: &StartWriteCase,
    tally: &mut Tally,
) -> Result<(), String> {
    let needed = case.answer.as_ref().map_or(0, Vec::len);
    let even = bytes_of(&case.cells);
    let odd = [&even[..], &[ODD]].concat();
    let mut lengths = lengths(needed);
    lengths.insert(case.start_bytes);
    for bytes in lengths {
        compare_written(subject, case, &even, bytes, tally)?;
        compare_written(subject, case, &odd, bytes, tally)?;
    }
    if case.answer.is_err() {
        return Ok(());
    }
    let entries = cell_count(&case.program);
    for short in [0, entries - 1] {
        let refused = StartWriteCase {
            cells: case.cells[..short].to_vec(),
            answer: Err(Refusal {
                number: number::MEMORY_SHORT,
                place: entries,
            }),
            ..case.clone()
        };
        for bytes in [0, needed - 1, needed] {
            compare_written(subject, &refused, &odd[..2 * short + 1], bytes, tally)?;
        }
    }
    Ok(())
}

/// Compares a writer of start bytes with a case, with these bytes of its list and so many bytes of
/// memory.
fn compare_written(
    subject: &Extras,
    case: &StartWriteCase,
    cells: &[u8],
    bytes: usize,
    tally: &mut Tally,
) -> Result<(), String> {
    let right = match &case.answer {
        Ok(start) => fitted(DONE, start, bytes),
        Err(refusal) if !holds_for(case, refusal, bytes) => return Ok(()),
        Err(refusal) => right((*refusal).into(), &[], bytes),
    };
    let called = Called {
        function: START_WRITER,
        input: &|| format!("program {}\ncells {}", to_hex(&case.program), to_hex(cells)),
        entries: bytes,
    };
    let seen = (subject.write_start)(&case.program, cells, bytes);
    called.agree(seen, right, to_hex, tally)
}

/// Whether a case's refusal holds with so many bytes of memory: the case does not hold the bytes
/// that longer memory gets.
fn holds_for(case: &StartWriteCase, refusal: &Refusal, bytes: usize) -> bool {
    let of_memory =
        refusal.number == number::MEMORY_SHORT && case.cells.len() >= cell_count(&case.program);
    !of_memory || bytes < refusal.place
}

/// Compares a reader of start bytes with a case, with the case's list and with lists of other
/// lengths, each without an odd last byte and with one.
pub fn compare_start_reader(
    subject: &Extras,
    case: &StartReadCase,
    tally: &mut Tally,
) -> Result<(), String> {
    let mut lengths = lengths(case.answer.as_ref().map_or(0, Vec::len));
    lengths.insert(case.cell_entries);
    for entries in lengths {
        compare_read(subject, case, 2 * entries, tally)?;
        compare_read(subject, case, 2 * entries + 1, tally)?;
    }
    Ok(())
}

/// Compares a reader of start bytes with a case, with a cell list of so many bytes.
fn compare_read(
    subject: &Extras,
    case: &StartReadCase,
    bytes: usize,
    tally: &mut Tally,
) -> Result<(), String> {
    let right = match &case.answer {
        Ok(cells) => fitted_entries(cells, bytes),
        // The case does not hold the cells that a longer list gets.
        Err(short) if short.number == number::MEMORY_SHORT && bytes / 2 >= short.place => {
            return Ok(());
        }
        Err(refusal) => right((*refusal).into(), &[], bytes),
    };
    let called = Called {
        function: START_READER,
        input: &|| {
            let (program, start) = (to_hex(&case.program), to_hex(&case.start));
            format!("program {program}\nstart {start}")
        },
        entries: bytes,
    };
    let seen = (subject.read_start)(&case.program, &case.start, bytes);
    called.agree(seen, right, to_hex, tally)
}

/// What is right where these entries are filled if they fit into so many bytes, and else 15; the
/// value is in entries.
fn fitted_entries(cells: &[u16], bytes: usize) -> Seen<u8> {
    let value = cells.len();
    if bytes / 2 < value {
        let number = number::MEMORY_SHORT;
        return right(Told { number, value }, &[], bytes);
    }
    let number = DONE;
    right(Told { number, value }, &bytes_of(cells), bytes)
}
