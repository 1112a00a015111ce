//! Damage of every kind, so that every refusal comes up at many places.

use super::rng::Rng;
use super::widen::Run;
use super::Input;
use crate::limits::MAX_ITEMS;
use crate::machine::{Machine, Start};
use crate::program::{Kind, Program};
use crate::record::{maps, record_bytes, Act, Cell, Item, Pop};
use std::collections::BTreeMap;

/// Damages an input made of this run in one random way.
pub fn damage(rng: &mut Rng, run: &mut Run, input: &mut Input) {
    let (program, start, items) = run;
    match rng.below(20) {
        0 => bytes(rng, &mut input.program),
        1 => header(rng, &mut input.program),
        2 => transition_byte(rng, program, &mut input.program),
        3 => bytes(rng, &mut input.record),
        4 => count(rng, &mut input.record),
        5 | 6 => item_byte(rng, items, &mut input.record),
        7 | 8 => shorter_lists(rng, input),
        9 => lengthen(rng, items, &mut input.record),
        10..=15 => {
            reorder(rng, program, items);
            input.record = record_bytes(items);
        }
        _ => {
            intrude(rng, program, start, items);
            input.record = record_bytes(items);
        }
    }
}

/// Changes, drops or adds a byte, or cuts or lengthens the whole.
pub(super) fn bytes(rng: &mut Rng, bytes: &mut Vec<u8>) {
    let at = rng.below(bytes.len() + 1);
    let byte = near_byte(rng);
    match rng.below(5) {
        0 => bytes.insert(at, byte),
        1 => bytes.truncate(at),
        2 => bytes.push(byte),
        3 if at < bytes.len() => drop(bytes.remove(at)),
        _ => put(bytes, at, byte),
    }
}

/// A byte, mostly a small one.
fn near_byte(rng: &mut Rng) -> u8 {
    if rng.chance(2, 3) {
        rng.byte() % 66
    } else {
        rng.byte()
    }
}

/// Puts a byte at a place if there is one.
fn put(bytes: &mut [u8], at: usize, byte: u8) {
    if let Some(old) = bytes.get_mut(at) {
        *old = byte;
    }
}

/// Puts another number into the program's header, often just outside the range that it has in
/// document 01.
fn header(rng: &mut Rng, program: &mut [u8]) {
    const OUTSIDE: [u8; 6] = [9, 65, 17, 5, 65, 129];
    let at = rng.below(6);
    let byte = *rng.pick(&[0, 1, OUTSIDE[at], OUTSIDE[at] - 1, 255]);
    put(program, at, byte);
}

/// Puts another byte at one of the first bytes of a transition: map, kind, states, register, token.
fn transition_byte(rng: &mut Rng, program: &Program, bytes: &mut [u8]) {
    if program.transitions.is_empty() {
        return;
    }
    let mut before = program.header();
    let chosen = rng.below(program.transitions.len());
    for transition in &program.transitions[..chosen] {
        transition.write(&mut before);
    }
    let at = before.len() + rng.below(6);
    let states = program.states as u8;
    let byte = *rng.pick(&[0, 3, 4, 6, 7, 9, 10, 16, 21, 30, 31, states, 255]);
    put(bytes, at, byte);
}

/// Changes the item count.
fn count(rng: &mut Rng, record: &mut [u8]) {
    let Some(field) = record.first_chunk_mut::<2>() else {
        return;
    };
    let old = u16::from_be_bytes(*field);
    let (less, more) = (old.wrapping_sub(1), old.wrapping_add(1));
    *field = rng
        .pick(&[less, more, more, 1024, 1025, 65535, 0])
        .to_be_bytes();
}

/// Where an item begins in the record's bytes.
fn item_place(items: &[Item], index: usize) -> usize {
    record_bytes(&items[..index]).len()
}

/// Puts a byte into one field of an item, in its range or just outside.
fn item_byte(rng: &mut Rng, items: &[Item], record: &mut [u8]) {
    if items.is_empty() {
        return;
    }
    let index = rng.below(items.len());
    let at = item_place(items, index);
    let field = rng.below(9);
    let byte = match field {
        0 => *rng.pick(&[0, 3, 27, 29, 59, 61, 63, 31, 35]),
        1 => *rng.pick(&[0, 1, 2, 3, 4, 5, 6, 7, 8, 9, 10, 255]),
        2 | 4 => *rng.pick(&[0, 1, 2, 3, 8, 9, 255]),
        3 => *rng.pick(&[0, 1, 2, 3, 4, 127, 128, 255]),
        5 => *rng.pick(&[0, 1, 255]),
        6 => *rng.pick(&[0, 1, 2, 3, 63, 64, 255]),
        _ => rng.byte(),
    };
    put(record, at + field, byte);
}

/// Makes the order list, the cell list or both shorter, by one or more bytes.
fn shorter_lists(rng: &mut Rng, input: &mut Input) {
    let which = rng.below(3);
    if which != 0 {
        let by = rng.within(1..=4).min(input.order_bytes);
        input.order_bytes -= by;
    }
    if which != 1 {
        let by = *rng.pick(&[1, 2, 3, input.cell_bytes]);
        input.cell_bytes -= by.min(input.cell_bytes);
    }
}

/// Repeats the items until the record has 1,024 or 1,025 of them.
fn lengthen(rng: &mut Rng, items: &mut Vec<Item>, record: &mut Vec<u8>) {
    if items.is_empty() || !rng.chance(1, 8) {
        return count(rng, record);
    }
    let length = MAX_ITEMS + rng.below(2);
    *items = items.iter().copied().cycle().take(length).collect();
    *record = record_bytes(items);
}

/// Exchanges, drops, doubles, cuts or changes whole items.
fn reorder(rng: &mut Rng, program: &Program, items: &mut Vec<Item>) {
    if items.is_empty() {
        return;
    }
    let (one, other) = (rng.below(items.len()), rng.below(items.len()));
    match rng.below(7) {
        0 => items.swap(one, other),
        1 if one + 1 < items.len() => items.swap(one, one + 1),
        2 => drop(items.remove(one)),
        3 => items.insert(other, items[one]),
        4 => items.truncate(one),
        _ => items[one] = changed(rng, program, items[one]),
    }
    items.truncate(MAX_ITEMS);
}

/// The item with one field changed inside its range.
pub fn changed(rng: &mut Rng, program: &Program, mut item: Item) -> Item {
    let some_rank = rng.within(1..=program.ranks);
    let some_cell = rng.below(program.cells);
    match (rng.below(4), &mut item) {
        (0, Item { act, .. }) => change_act(rng, program, act, some_rank),
        (
            1,
            Item {
                place: Some(place), ..
            },
        ) => place.rank = some_rank,
        (
            2,
            Item {
                place: Some(place), ..
            },
        ) => place.cell = some_cell,
        (
            _,
            Item {
                value: Some(value), ..
            },
        ) => *value = value.wrapping_add(1),
        (_, Item { act, .. }) => change_act(rng, program, act, some_rank),
    }
    item
}

/// Changes the rank, the transition, the queue or the named remote rank of an act.
fn change_act(rng: &mut Rng, program: &Program, act: &mut Act, some_rank: usize) {
    let by_rank = rng.chance(1, 2);
    match act {
        act if by_rank => act.set_rank(some_rank),
        Act::Command { transition, .. } => *transition = rng.below(program.transitions.len()),
        Act::PopA(pop) | Act::PopB(pop) if pop.remote.is_some() && rng.chance(2, 3) => {
            pop.remote = Some(rng.within(1..=program.ranks));
        }
        Act::PopA(pop) | Act::PopB(pop) => pop.queue = rng.below(program.queues),
    }
}

/// Puts in an item that does not belong there: a pop, a bar, or a command that is refused.
pub fn intrude(rng: &mut Rng, program: &Program, start: &Start, items: &mut Vec<Item>) {
    if items.len() >= MAX_ITEMS {
        return;
    }
    let at = rng.below(items.len() + 1);
    let rank = rng.within(1..=program.ranks);
    let queue = rng.below(program.queues);
    let act = match rng.below(8) {
        0 => Some(Act::PopA(Pop::of_all(rank, queue))),
        1 => Some(Act::PopB(Pop::of_all(rank, queue))),
        2 => any_command(rng, program, Some(Kind::Bar)),
        3 => any_command(rng, program, None),
        _ => refused_command(rng, program, start, &items[..at]),
    };
    if let Some(act) = act {
        items.insert(at, claimed(rng, program, act));
    }
}

/// Any command, of the kind if one is asked for.
fn any_command(rng: &mut Rng, program: &Program, kind: Option<Kind>) -> Option<Act> {
    if program.transitions.is_empty() {
        return None;
    }
    let rank = rng.within(1..=program.ranks);
    let transition = rng.below(program.transitions.len());
    let kind = kind.unwrap_or(program.transitions[transition].kind);
    Some(Act::Command {
        kind,
        rank,
        transition,
    })
}

/// A command from the right state that the machine refuses after these items; each of the
/// numbers it can be refused with is as likely.
fn refused_command(
    rng: &mut Rng,
    program: &Program,
    start: &Start,
    before: &[Item],
) -> Option<Act> {
    let mut machine = Machine::new(program, start);
    for item in before {
        machine.step(program, item).ok()?;
    }
    let mut refused: BTreeMap<u8, Vec<Act>> = BTreeMap::new();
    for rank in 1..=program.ranks {
        for (index, transition) in program.transitions.iter().enumerate() {
            let act = Act::Command {
                kind: transition.kind,
                rank,
                transition: index,
            };
            if transition.from != machine.rank(rank).state {
                continue;
            }
            if let Err(number) = machine.clone().perform(program, act) {
                refused.entry(number).or_default().push(act);
            }
        }
    }
    if refused.is_empty() {
        return None;
    }
    let by_number: Vec<Vec<Act>> = refused.into_values().collect();
    let acts = rng.pick(&by_number);
    Some(*rng.pick(acts))
}

/// The act as an item that claims some place and perhaps a value, where its kind has them.
fn claimed(rng: &mut Rng, program: &Program, act: Act) -> Item {
    let [plain, valued] = maps(act.kind());
    let has_place = plain != valued;
    let place = Cell {
        rank: act.rank(),
        cell: rng.below(program.cells),
    };
    let place = has_place.then_some(place);
    let value = (has_place && rng.chance(1, 2)).then(|| rng.value());
    Item { act, place, value }
}
