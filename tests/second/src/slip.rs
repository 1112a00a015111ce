//! The run slip: its writer and its reader.

use crate::bytes::ByteReader;
use crate::check::{accept, Accepted};
use crate::limits::{number, refuse, Outcome, MAX_ITEMS, MAX_RANKS, MAX_SHORT_MAP_RANKS};

/// The slip of an accepted run: the map of ranks with a command item, then their counts.
pub fn slip_of(accepted: &Accepted) -> Vec<u8> {
    let ranks = &accepted.run.last.ranks;
    let mut map = 0u16;
    let mut counts = Vec::new();
    for (index, rank) in ranks.iter().enumerate() {
        if rank.taken > 0 {
            map |= 1 << index;
            counts.extend((rank.taken as u16).to_be_bytes());
        }
    }
    let mut slip = map_bytes(ranks.len(), map);
    slip.extend(counts);
    slip
}

/// The bytes of a map of N ranks: a two-byte number if N is above 8, and else one byte.
pub fn map_bytes(ranks: usize, map: u16) -> Vec<u8> {
    if ranks > MAX_SHORT_MAP_RANKS {
        map.to_be_bytes().to_vec()
    } else {
        vec![map as u8]
    }
}

/// Reads a map of N ranks, which is one field; a bit for a rank above N is refused at byte 0.
fn read_map(reader: &mut ByteReader, ranks: usize) -> Outcome<usize> {
    let maps = 0..=(1 << ranks) - 1;
    if ranks > MAX_SHORT_MAP_RANKS {
        reader.word_within(maps, number::SLIP)
    } else {
        reader.byte_within(maps, number::SLIP)
    }
}

/// Writes the slip into lent memory and gives its length; refuses as the check, then 15 only.
pub fn write_slip(
    program: &[u8],
    start: &[u8],
    record: &[u8],
    memory: &mut [u8],
) -> Outcome<usize> {
    let slip = slip_of(&accept(program, start, record)?);
    if memory.len() < slip.len() {
        return refuse(number::MEMORY_SHORT, slip.len());
    }
    memory[..slip.len()].copy_from_slice(&slip);
    Ok(slip.len())
}

/// Reads a slip for N ranks and fills N counts, 0 for a rank without a bit; 16 before 15.
pub fn read_slip(ranks: usize, slip: &[u8], counts: &mut [u16]) -> Outcome<()> {
    let read = slip_counts(ranks, slip)?;
    if counts.len() < ranks {
        return refuse(number::MEMORY_SHORT, ranks);
    }
    counts[..ranks].copy_from_slice(&read);
    Ok(())
}

/// The counts of a slip for N ranks, or 16 where it is not as the papers say.
fn slip_counts(ranks: usize, slip: &[u8]) -> Outcome<Vec<u16>> {
    if !(1..=MAX_RANKS).contains(&ranks) {
        return refuse(number::SLIP, 0);
    }
    let mut reader = ByteReader::new(slip, number::SLIP);
    let map = read_map(&mut reader, ranks)?;
    let mut counts = Vec::new();
    for index in 0..ranks {
        let mut count = 0;
        if map & (1 << index) != 0 {
            count = reader.word_within(1..=MAX_ITEMS, number::SLIP)?;
        }
        counts.push(count as u16);
    }
    reader.finish()?;
    Ok(counts)
}
