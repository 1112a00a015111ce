//! Damage aimed at what #105 brings: N itself, ranks at and beyond their limits in items and places,
//! rows of many bars, and the length of the cell list.

use super::rng::Rng;
use super::widen::Run;
use super::Input;
use crate::limits::{MAX_ITEMS, MAX_SHORT_MAP_RANKS};
use crate::program::{Kind, Program};
use crate::record::{record_bytes, Item};

/// Damages an input made of this run in one such way.
pub fn damage(rng: &mut Rng, (program, _, items): &mut Run, input: &mut Input) {
    match rng.below(8) {
        0 | 1 => header(rng, program, &mut input.program),
        2..=4 => {
            other_rank(rng, program, items);
            input.record = record_bytes(items);
        }
        5 | 6 => {
            row(rng, items);
            input.record = record_bytes(items);
        }
        _ => cell_list(rng, program, input),
    }
}

/// Writes another N, at or beyond a limit or next to the one it was.
fn header(rng: &mut Rng, program: &Program, bytes: &mut [u8]) {
    let ranks = program.ranks as u8;
    let other = *rng.pick(&[0, 8, 9, 15, 16, 17, 17, 18, ranks - 1, ranks + 1, 24, 255]);
    if let Some(first) = bytes.first_mut() {
        *first = other;
    }
}

/// Gives an item another rank, or another one to its place, inside the range or outside.
fn other_rank(rng: &mut Rng, program: &Program, items: &mut [Item]) {
    if items.is_empty() {
        return;
    }
    let chosen = rng.below(items.len());
    let ranks = program.ranks;
    let other = *rng.pick(&[
        0,
        1,
        8,
        9,
        ranks - 1,
        ranks,
        ranks + 1,
        ranks + 1,
        16,
        17,
        255,
    ]);
    match &mut items[chosen] {
        Item {
            place: Some(place), ..
        } if rng.chance(1, 2) => place.rank = other,
        item => item.act.set_rank(other),
    }
}

/// Changes a row, if there is one: it ends after rank 8 or at some bar, a bar comes twice, or the
/// bar after it comes first.
fn row(rng: &mut Rng, items: &mut Vec<Item>) {
    let is_bar = |&at: &usize| items[at].act.kind() == Kind::Bar;
    let bars: Vec<usize> = (0..items.len()).filter(is_bar).collect();
    if bars.is_empty() {
        return;
    }
    let at = *rng.pick(&bars);
    match rng.below(4) {
        0 => items
            .retain(|item| item.act.kind() != Kind::Bar || item.act.rank() <= MAX_SHORT_MAP_RANKS),
        1 => items.truncate(at),
        2 if at + 1 < items.len() => items.swap(at, at + 1),
        _ => items.insert(at, items[at]),
    }
    items.truncate(MAX_ITEMS);
}

/// Lends a cell list of eight ranks, or one that is an entry short.
fn cell_list(rng: &mut Rng, program: &Program, input: &mut Input) {
    let all = program.ranks * program.cells;
    let eight = MAX_SHORT_MAP_RANKS * program.cells;
    input.cell_bytes = 2 * *rng.pick(&[all - 1, all, eight, eight - 1, 512]);
}
