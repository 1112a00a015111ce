//! Random slips, right and damaged.

use super::edition::Edition;
use super::rng::Rng;
use crate::slip::map_bytes;

/// One input of the slip reader.
#[derive(Debug, Clone, PartialEq, Eq)]
pub struct SlipInput {
    /// The N given to the reader.
    pub ranks: usize,
    /// The slip.
    pub slip: Vec<u8>,
    /// The length of the list of counts.
    pub counts_entries: usize,
}

/// The slip input of this number under this seed; about half of them are damaged.
pub fn slip_input(seed: u64, index: u64) -> SlipInput {
    made(seed, index, Edition::Today)
}

/// The slip input of this number under this seed as document 01 alone has them.
pub fn slip_input_of_document_01(seed: u64, index: u64) -> SlipInput {
    made(seed, index, Edition::Document01)
}

/// The slip input of this number under this seed.
fn made(seed: u64, index: u64, edition: Edition) -> SlipInput {
    let mut rng = Rng::new(!seed, index);
    let ranks = rng.within(1..=edition.most_ranks());
    let map = rng.bits() as usize % (1 << ranks);
    let mut slip = map_bytes(ranks, map as u16);
    for _ in 0..map.count_ones() {
        let count = *rng.pick(&[1, 2, 255, 256, 1023, 1024]);
        slip.extend(u16::to_be_bytes(count));
    }
    let counts_entries = ranks + rng.below(3);
    let mut input = SlipInput {
        ranks,
        slip,
        counts_entries,
    };
    if rng.chance(1, 2) {
        damage(&mut rng, &mut input, edition);
    }
    if edition == Edition::Today && rng.chance(1, 6) {
        damage_map(&mut rng, &mut input);
    }
    input
}

/// Damages a slip input in one random way.
fn damage(rng: &mut Rng, input: &mut SlipInput, edition: Edition) {
    let at = rng.below(input.slip.len() + 1);
    let byte = *rng.pick(&[0, 1, 4, 5, 255]);
    match rng.below(7) {
        0 => input.ranks = *rng.pick(&[0, edition.most_ranks() + 1, 255, 65535]),
        1 => input.ranks = rng.within(1..=edition.most_ranks()),
        2 => input.counts_entries = rng.below(input.ranks),
        3 => input.slip.truncate(at),
        4 => input.slip.push(byte),
        5 => input.slip.insert(at, byte),
        _ => {
            if let Some(old) = input.slip.get_mut(at) {
                *old = byte;
            }
        }
    }
}

/// Damages the map, whether it has one byte or two: a bit at one of its ends is changed, its bytes
/// are exchanged, all of it but the first byte is left out, or a byte is put before it.
fn damage_map(rng: &mut Rng, input: &mut SlipInput) {
    let bit = 1 << rng.below(8);
    match (rng.below(5), &mut input.slip[..]) {
        (0, [first, ..]) => *first ^= bit,
        (1, [_, second, ..]) => *second ^= bit,
        (2, [first, second, ..]) => std::mem::swap(first, second),
        (3, [_, ..]) => input.slip.truncate(1),
        _ => input.slip.insert(0, 0),
    }
}
