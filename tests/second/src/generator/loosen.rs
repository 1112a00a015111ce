//! Loosening: moving items of an accepted record past each other where its trace stays the same.

use super::rng::Rng;
use crate::program::{Kind, Program};
use crate::record::{Act, Item, Pop};

/// Moves items past their neighbours, at random and as often as drawn; the trace stays. Either every
/// pop names its remote rank or none does.
pub fn loosen(rng: &mut Rng, program: &Program, items: &mut [Item]) {
    if items.len() < 2 {
        return;
    }
    let times = items.len() * *rng.pick(&[0, 1, 4, 16]);
    for _ in 0..times {
        let at = rng.below(items.len() - 1);
        let (first, second) = (items[at], items[at + 1]);
        if is_pop(&first) && second.act.kind() == Kind::Bar && second.act.rank() == 1 {
            items[at..=at + program.ranks].rotate_left(1);
        } else if may_pass(&first, &second) {
            items.swap(at, at + 1);
        }
    }
}

/// Whether the item is a popa or a popb.
fn is_pop(item: &Item) -> bool {
    item.act.transition().is_none()
}

/// Whether the second item may come before the first without changing what any item does.
fn may_pass(first: &Item, second: &Item) -> bool {
    let bars = [first, second]
        .iter()
        .any(|item| item.act.kind() == Kind::Bar);
    !bars && !same_cell_conflict(first, second) && !ordered(first.act, second.act)
}

/// Whether both access one cell and one of them writes.
pub fn same_cell_conflict(first: &Item, second: &Item) -> bool {
    let writes = |item: &Item| matches!(item.act.kind(), Kind::Store | Kind::PopB);
    first.place.is_some() && first.place == second.place && (writes(first) || writes(second))
}

/// Whether program order or a queue keeps the two in this order; a queue does not if they name
/// different remote ranks.
fn ordered(first: Act, second: Act) -> bool {
    if first.rank() != second.rank() {
        return false;
    }
    match (first, second) {
        (Act::Command { .. }, Act::Command { .. }) => true,
        (Act::Command { kind, .. }, Act::PopA(_)) => kind.is_transfer(),
        (Act::PopA(one), Act::PopB(other))
        | (Act::PopA(one), Act::PopA(other))
        | (Act::PopB(one), Act::PopB(other)) => {
            one.queue == other.queue && !name_others(one, other)
        }
        _ => false,
    }
}

/// Whether two pops name different remote ranks.
fn name_others(one: Pop, other: Pop) -> bool {
    one.remote
        .zip(other.remote)
        .is_some_and(|(one, other)| one != other)
}
