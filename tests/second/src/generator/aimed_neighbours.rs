//! Damage aimed at what #108 brings: map bit 6 and the remote rank in pops and elsewhere, names of
//! ranks for which nothing waits, and pops out of turn.

use super::aimed::{change_item, MAP};
use super::rng::Rng;
use super::widen::Run;
use super::Input;
use crate::limits::MAX_ITEMS;
use crate::program::{Kind, Program};
use crate::record::{record_bytes, Item, REMOTE_BIT};

/// Damages an input made of this run in one such way.
pub fn damage(rng: &mut Rng, (program, _, items): &mut Run, input: &mut Input) {
    let pops = places(items, Kind::is_pop);
    if pops.is_empty() {
        return any_item(rng, program, items, &mut input.record);
    }
    let (one, other) = (*rng.pick(&pops), *rng.pick(&pops));
    match rng.below(12) {
        0..=4 => {
            let change = |rng: &mut Rng, part: &mut Vec<u8>| remote_byte(rng, program, part);
            return change_item(rng, items, one, &mut input.record, change);
        }
        5 => return any_item(rng, program, items, &mut input.record),
        6..=8 => name_another(rng, program, &mut items[one]),
        9 => items.swap(one, other),
        10 => drop(items.remove(one)),
        _ => {
            let mut item = items[one];
            name_another(rng, program, &mut item);
            let before = [&[other], &places(items, |kind| kind == Kind::Bar)[..]].concat();
            items.insert(*rng.pick(&before), item);
            items.truncate(MAX_ITEMS);
        }
    }
    input.record = record_bytes(items);
}

/// The places of the items of such kinds.
fn places(items: &[Item], such: fn(Kind) -> bool) -> Vec<usize> {
    let is_such = |&at: &usize| such(items[at].act.kind());
    (0..items.len()).filter(is_such).collect()
}

/// Changes bit 6 and the byte that it brings in some item, a pop or not.
fn any_item(rng: &mut Rng, program: &Program, items: &[Item], record: &mut Vec<u8>) {
    if !items.is_empty() {
        let chosen = rng.below(items.len());
        let change = |rng: &mut Rng, part: &mut Vec<u8>| remote_byte(rng, program, part);
        change_item(rng, items, chosen, record, change);
    }
}

/// Has a pop name another rank in its range, or none.
fn name_another(rng: &mut Rng, program: &Program, item: &mut Item) {
    let some = rng.within(1..=program.ranks);
    if let Some(pop) = item.act.pop_mut() {
        pop.remote = *rng.pick(&[None, Some(some), Some(some), Some(pop.rank)]);
    }
}

/// Sets bit 6 or takes it away, with its byte or without, or changes that byte.
fn remote_byte(rng: &mut Rng, program: &Program, part: &mut Vec<u8>) {
    let ranks = program.ranks as u8;
    let some = rng.within(1..=program.ranks) as u8;
    let other = *rng.pick(&[0, ranks + 1, ranks + 1, 128 + ranks, 255, some, ranks]);
    match (part[MAP] & REMOTE_BIT != 0, rng.below(6)) {
        (_, 0) => part[MAP] ^= REMOTE_BIT,
        (true, 1) => {
            part[MAP] ^= REMOTE_BIT;
            part.pop();
        }
        (true, 2) => drop(part.pop()),
        (true, 3) => part.push(other),
        (true, _) => {
            part.pop();
            part.push(other);
        }
        (false, _) => {
            part[MAP] |= REMOTE_BIT;
            part.push(other);
        }
    }
}
