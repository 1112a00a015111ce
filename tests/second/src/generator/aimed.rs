//! Damage aimed at what #107 brings: the count byte, the two-byte count, map bit 7, and the
//! transition's high byte, alone and beside other faults; and items that the replay refuses.

use super::damage::{changed, intrude};
use super::rng::Rng;
use super::widen::Run;
use super::Input;
use crate::program::{count_bytes, long_count_bytes, Program};
use crate::record::{record_bytes, Item, HIGH_BIT, REMOTE_BIT};

/// The place of the map in an item's bytes.
pub(super) const MAP: usize = 0;
/// The place of the rank.
const RANK: usize = 2;
/// The place of the transition or its low byte; of a pop's queue.
const LOW: usize = 3;
/// The place of the place's rank, if the item has one.
const OWNER: usize = 4;
/// The place of the place's cell.
const CELL: usize = 5;

/// Damages an input made of this run in one such way.
pub fn damage(rng: &mut Rng, run: &mut Run, input: &mut Input) {
    let (program, start, items) = run;
    match rng.below(8) {
        0 | 1 => count(rng, program, &mut input.program),
        2..=4 if !items.is_empty() => {
            let chosen = rng.below(items.len());
            let change = |rng: &mut Rng, part: &mut Vec<u8>| high_byte(rng, program, part);
            change_item(rng, items, chosen, &mut input.record, change);
        }
        5 => {
            replayed(rng, program, items);
            input.record = record_bytes(items);
        }
        _ => {
            intrude(rng, program, start, items);
            input.record = record_bytes(items);
        }
    }
}

/// Changes an item with a high byte, if there is one, inside its ranges.
fn replayed(rng: &mut Rng, program: &Program, items: &mut [Item]) {
    let is_high = |item: &&mut Item| item.act.transition() >= Some(256);
    let mut high: Vec<&mut Item> = items.iter_mut().filter(is_high).collect();
    if !high.is_empty() {
        let chosen = rng.below(high.len());
        *high[chosen] = changed(rng, program, *high[chosen]);
    }
}

/// Writes another count, or the same in the other form; now and then the program ends soon after.
fn count(rng: &mut Rng, program: &Program, bytes: &mut Vec<u8>) {
    let transitions = program.transitions.len() as u16;
    let long = [0, 1, 128, 129, 255, 256, 400, 401, 65535];
    let field = match rng.below(4) {
        0 => vec![*rng.pick(&[129, 130, 200, 254, transitions as u8])],
        1 => long_count_bytes(*rng.pick(&long)),
        2 => long_count_bytes(*rng.pick(&[
            transitions,
            transitions + 1,
            transitions.saturating_sub(1),
            transitions % 256,
        ])),
        _ => count_bytes(usize::from(*rng.pick(&long))),
    };
    let numbers = &program.header()[..5];
    let end = program.header().len().min(bytes.len());
    let mut changed = [numbers, &field].concat();
    let ends_early = rng.chance(1, 4);
    if ends_early {
        changed.truncate(5 + rng.below(field.len() + 1));
    } else {
        changed.extend(&bytes[end..]);
    }
    *bytes = changed;
    if rng.chance(1, 8) {
        let at = rng.below(5);
        bytes[at] = *rng.pick(&[0, 255]);
    }
}

/// Changes the bytes of one item, often with another fault beside it.
pub(super) fn change_item(
    rng: &mut Rng,
    items: &[Item],
    chosen: usize,
    record: &mut Vec<u8>,
    change: impl FnOnce(&mut Rng, &mut Vec<u8>),
) {
    let written = |item: &Item| {
        let mut bytes = Vec::new();
        item.write(&mut bytes);
        bytes
    };
    let mut parts: Vec<Vec<u8>> = items.iter().map(written).collect();
    change(rng, &mut parts[chosen]);
    match rng.below(6) {
        0 | 1 => earlier_field(rng, &mut parts[chosen]),
        2 => {
            if let Some(next) = parts.get_mut(chosen + 1) {
                next[MAP] = *rng.pick(&[0, REMOTE_BIT, HIGH_BIT, 255]);
            }
        }
        3 => {
            parts.truncate(chosen + 1);
            parts[chosen].pop();
        }
        _ => {}
    }
    *record = (items.len() as u16).to_be_bytes().to_vec();
    record.extend(parts.concat());
}

/// Changes bit 7, the high byte or the low byte of an item, or both bytes.
fn high_byte(rng: &mut Rng, program: &Program, part: &mut Vec<u8>) {
    let has_high = part[MAP] & HIGH_BIT != 0;
    let [size_high, size_low] = (program.transitions.len() as u16).to_be_bytes();
    let mut high = *rng.pick(&[0, 0, 1, 1, 2, 255]);
    let mut low = *rng.pick(&[0, 1, 255, size_low, size_low.wrapping_sub(1)]);
    if rng.chance(1, 3) {
        (high, low) = (size_high, size_low);
    }
    match (has_high, rng.below(5)) {
        (_, 0) => part[MAP] ^= HIGH_BIT,
        (true, 1) => {
            part[MAP] ^= HIGH_BIT;
            part.pop();
        }
        (true, 2) => drop(part.pop()),
        (true, which) => {
            if which == 3 {
                part[LOW] = low;
            }
            part.pop();
            part.push(high);
        }
        (false, 1) => part[LOW] = *rng.pick(&[size_low, 255]),
        (false, which) => {
            if which == 2 {
                part[LOW] = low;
            }
            part[MAP] |= HIGH_BIT;
            part.push(high);
        }
    }
}

/// Puts a field before the item's last outside its range.
fn earlier_field(rng: &mut Rng, part: &mut [u8]) {
    let at = *rng.pick(&[RANK, OWNER, CELL]);
    let last = part.len() - 1;
    part[at.min(last)] = *rng.pick(&[0, 255]);
}
