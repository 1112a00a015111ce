//! Starts that differ only in cells that a record never accesses.

use super::tried::Tried;
use super::{pick_often, Held};
use crate::check::Accepted;
use crate::generator::rng::Rng;
use crate::generator::Input;
use crate::harness::inner;
use crate::machine::Start;
use crate::start::{shortest_bytes, start_bytes};
use std::collections::BTreeSet;

/// The cells that no item of a run accesses, by their places in a cell list.
pub fn never_accessed(accepted: &Accepted) -> Vec<usize> {
    let cells = accepted.program.cells;
    let place = |rank: usize, cell: usize| (rank - 1) * cells + cell;
    let accesses = accepted.items.iter().filter_map(|item| item.place);
    let accessed: BTreeSet<usize> = accesses
        .map(|access| place(access.rank, access.cell))
        .collect();
    let all = 0..accepted.program.ranks * cells;
    all.filter(|at| !accessed.contains(at)).collect()
}

/// Changes the start in all cells that the record never accesses, in one of them, and in all to 0 or,
/// if they are 0, to the highest reading.
pub fn hold(rng: &mut Rng, held: &Held, tried: &mut Tried) -> Result<(), String> {
    let free = never_accessed(&held.accepted);
    if free.is_empty() {
        return Ok(());
    }
    let before = held.accepted.start.cells();
    let cells = held.accepted.program.cells;
    let at_end = |at: usize| [0, cells - 1].contains(&(at % cells));
    let one = pick_often(rng, &free, at_end);
    let all = if free.iter().any(|&at| before[at] != 0) {
        0
    } else {
        65_535
    };
    let starts = [
        changed(&held.accepted, &free, || reading(rng)),
        changed(&held.accepted, &[one], || reading(rng)),
        changed(&held.accepted, &free, || all),
    ];
    for start in starts {
        let bytes = if rng.chance(1, 3) {
            start_bytes(&start)
        } else {
            shortest_bytes(&start)
        };
        let other = beside_start(held, bytes)?;
        tried.count_start(held, &other);
    }
    Ok(())
}

/// A reading, often at an end of the range.
fn reading(rng: &mut Rng) -> u16 {
    let some = rng.value();
    *rng.pick(&[0, 1, 65_535, some, some, some])
}

/// The start of a run with other values in these cells.
pub fn changed(accepted: &Accepted, cells: &[usize], mut value: impl FnMut() -> u16) -> Start {
    let mut contents = accepted.start.cells();
    for &cell in cells {
        contents[cell] = value();
    }
    Start::with_cells(&accepted.program, &contents)
}

/// Holds the subject to the same answer from another start that differs in cells never accessed.
pub fn beside_start<'a>(held: &Held<'a>, start: Vec<u8>) -> Result<Held<'a>, String> {
    let input = Input {
        start,
        ..held.input.clone()
    };
    held.beside(input, same_but_for_the_start)
}

/// The same answer with the same list, and the same slip. Cells in which the starts differ are never
/// written, so each has its own reading at the end, and all others agree.
fn same_but_for_the_start(one: &Held, other: &Held) -> Result<(), String> {
    let mut right = one.observed.clone();
    let before = one.accepted.start.cells().into_iter();
    let after = other.accepted.start.cells();
    for (at, (before, after)) in before.zip(after).enumerate() {
        if before != after {
            inner(&mut right.cells)[2 * at..][..2].copy_from_slice(&after.to_be_bytes());
        }
    }
    if right.answer != other.observed.answer || right.order != other.observed.order {
        return Err("another order or ring from a start that no access tells apart".into());
    }
    if right.cells != other.observed.cells {
        return Err("other last cells from a start that no access tells apart".into());
    }
    if one.slip != other.slip {
        return Err("another slip from a start that no access tells apart".into());
    }
    Ok(())
}
