//! Damage aimed at what #103 brings: start bytes cut, lengthened or changed, other maps and values,
//! the other form of the zero start, and starts of other machines.

use super::damage::bytes;
use super::readings::readings;
use super::rng::Rng;
use super::widen::Run;
use super::Input;
use crate::machine::{RankStart, Start};
use crate::program::Program;
use crate::start::start_bytes;

/// Damages an input's start bytes in one such way; now and then the record's first bytes, too.
pub fn damage(rng: &mut Rng, (program, start, _): &Run, input: &mut Input) {
    damage_start(rng, program, start, &mut input.start);
    if rng.chance(1, 8) {
        input.record.truncate(rng.below(6));
    }
}

/// Damages the bytes of a start in one random way.
pub fn damage_start(rng: &mut Rng, program: &Program, start: &Start, input: &mut Vec<u8>) {
    match rng.below(16) {
        0 | 1 => bytes(rng, input),
        2 => input.truncate(rng.below(input.len() + 1)),
        3 => input.extend(vec![0; *rng.pick(&[1, 2, 8])]),
        4 => input.clear(),
        5 => *input = start_bytes(&Start::zero(program)),
        6 => *input = start_bytes(&readings(rng, program)),
        7 => *input = vec![0; 8 * program.ranks - 8],
        _ => *input = rewritten(rng, start),
    }
}

/// A rank's map and values as they are written.
struct Part {
    /// The map.
    map: [u8; 8],
    /// The values.
    values: Vec<u8>,
}

/// The bytes of a start written in another way at some rank or at all.
fn rewritten(rng: &mut Rng, start: &Start) -> Vec<u8> {
    let mut parts: Vec<Part> = start.0.iter().map(part).collect();
    let all = rng.chance(1, 4);
    let chosen = rng.below(parts.len());
    let way = rng.below(10);
    for (rank, part) in parts.iter_mut().enumerate() {
        if all || rank == chosen {
            rewrite(rng, part, way, start.0[rank].cells.len());
        }
    }
    match rng.below(12) {
        0 => parts.reverse(),
        1 => return maps_first(&parts),
        _ => {}
    }
    let written = |part: &Part| [&part.map[..], &part.values].concat();
    parts.iter().flat_map(written).collect()
}

/// The map and values of a rank.
fn part(rank: &RankStart) -> Part {
    let mut values = start_bytes(&Start(vec![rank.clone()]));
    let mut map = [0; 8];
    map.copy_from_slice(&values[..8]);
    values.drain(..8);
    Part { map, values }
}

/// Writes a rank's part in another way; it has so many cells.
fn rewrite(rng: &mut Rng, part: &mut Part, way: usize, cells: usize) {
    let map = u64::from_be_bytes(part.map);
    let some = rng.below(64);
    let bit = *rng.pick(&[cells, cells, cells + 1, some, 63]);
    let beyond = 1u64.checked_shl(bit as u32).unwrap_or(0);
    let at = rng.below(part.values.len() / 2 + 1) * 2;
    match way {
        0 => part.map.reverse(),
        1 => part.map = map.reverse_bits().to_be_bytes(),
        2 => part.values.chunks_exact_mut(2).for_each(<[u8]>::reverse),
        3 => part.map = (map | beyond).to_be_bytes(),
        4 => {
            part.map = (map | beyond).to_be_bytes();
            part.values.extend([0, 1]);
        }
        5 => part.map = (map & !beyond).to_be_bytes(),
        6 => {
            if let Some(value) = part.values.get_mut(at..at + 2) {
                value.fill(0);
            }
        }
        7 => {
            let unlisted = (0..cells).find(|cell| map >> cell & 1 == 0);
            let bit = unlisted.map_or(0, |cell| 1 << cell);
            part.map = (map | bit).to_be_bytes();
            let before = (map & bit.wrapping_sub(1)).count_ones() as usize * 2;
            let value = [0, rng.byte() % 2];
            part.values.splice(before..before, value);
        }
        8 => part.values.truncate(at),
        _ => part.values.extend([0, rng.byte() % 2]),
    }
}

/// The parts with all maps before all values.
fn maps_first(parts: &[Part]) -> Vec<u8> {
    let maps = parts.iter().flat_map(|part| part.map);
    let values = parts.iter().flat_map(|part| part.values.clone());
    maps.chain(values).collect()
}
