//! Damage aimed at what #102 brings: an expression of a command that is taken, moved to the edge of
//! the range or over it, alone and beside other faults of the same item, each of which comes before
//! 18 or after it.

use super::damage::changed;
use super::edges::moved;
use super::expressions::{Scope, Sums};
use super::rng::Rng;
use super::widen::Run;
use super::Input;
use crate::expression::Expression;
use crate::limits::{MAX_ITEMS, MAX_TRANSITIONS};
use crate::machine::{Machine, Start};
use crate::program::{Kind, Program, Transition};
use crate::record::{record_bytes, Act, Item};

/// Damages an input made of this run in one such way; the run stays what the input is made of.
pub fn damage(rng: &mut Rng, (program, start, items): &mut Run, input: &mut Input) {
    let mut places = places(program, items, |_| true);
    if places.is_empty() {
        return;
    }
    if rng.chance(1, 4) {
        let assumes = self::places(program, items, |kind| kind == Kind::Assume);
        places = if assumes.is_empty() { places } else { assumes };
    }
    let at = *rng.pick(&places);
    let machine = machine_before(program, start, &items[..at]);
    let taken = own_transition(program, &mut items[at]);
    let rank = items[at].act.rank();
    pass(rng, program, taken, (rank, &machine.rank(rank).registers));
    match rng.below(10) {
        0 | 1 => outside(rng, &mut program.transitions[taken]),
        2 => misplace(rng, program, &mut items[at]),
        3 => misfit(rng, program, taken, &mut items[at]),
        4 => open_row(program, items, at, machine.rank(1).state),
        5 => items[at] = changed(rng, program, items[at]),
        _ => {}
    }
    input.program = program.to_bytes();
    input.record = record_bytes(items);
}

/// The places of the items of such kinds that take a transition with expressions.
fn places(program: &Program, items: &[Item], such: fn(Kind) -> bool) -> Vec<usize> {
    let evaluates = |&at: &usize| {
        let taken = items[at].act.transition();
        let taken = taken.map(|taken| &program.transitions[taken]);
        taken.is_some_and(|taken| such(taken.kind) && !taken.expressions.is_empty())
    };
    (0..items.len()).filter(evaluates).collect()
}

/// Gives the item a transition of its own, which does what the old one does, if there is room for
/// it; its number.
fn own_transition(program: &mut Program, item: &mut Item) -> usize {
    let Act::Command { transition, .. } = &mut item.act else {
        return 0;
    };
    if program.transitions.len() < MAX_TRANSITIONS {
        program
            .transitions
            .push(program.transitions[*transition].clone());
        *transition = program.transitions.len() - 1;
    }
    *transition
}

/// The machine after these items, or after those before the first that is refused.
fn machine_before(program: &Program, start: &Start, items: &[Item]) -> Machine {
    let mut machine = Machine::new(program, start);
    for item in items {
        if machine.step(program, item).is_err() {
            break;
        }
    }
    machine
}

/// Moves one of the transition's expressions, or all of them, towards the edge or over it, where
/// the rank has these registers. An assume is made one of 0 now and then, so that 9 lies near.
fn pass(rng: &mut Rng, program: &mut Program, taken: usize, (rank, registers): (usize, &[u16])) {
    let mut expressions = program.transitions[taken].expressions.clone();
    if program.transitions[taken].kind == Kind::Assume && rng.chance(1, 2) {
        expressions[0] = Expression::Constant(0);
    }
    let all = rng.chance(1, 8);
    let chosen = rng.below(expressions.len());
    let scope = Scope {
        program,
        busy: &[rank],
        registers,
        sums: Sums::Edged,
    };
    for (number, expression) in expressions.iter_mut().enumerate() {
        if all || number == chosen {
            *expression = moved(rng, scope, expression.clone());
        }
    }
    program.transitions[taken].expressions = expressions;
}

/// Puts one of the transition's expressions outside its range, if it has one: 8.
fn outside(rng: &mut Rng, transition: &mut Transition) {
    let chosen = rng.below(transition.expressions.len());
    transition.expressions[chosen] = Expression::Constant(*rng.pick(&[64, 200, 65_535]));
}

/// Gives the item another place or value, if it has them: 11.
fn misplace(rng: &mut Rng, program: &Program, item: &mut Item) {
    let Some(place) = &mut item.place else { return };
    if rng.chance(1, 2) {
        place.cell = rng.below(program.cells);
    } else {
        item.value = Some(rng.value());
    }
}

/// Has the transition leave another state, or the item say another kind: 7.
fn misfit(rng: &mut Rng, program: &mut Program, taken: usize, item: &mut Item) {
    if rng.chance(1, 2) {
        let from = &mut program.transitions[taken].from;
        *from = (*from + 1) % program.states;
    } else if let Act::Command { kind, .. } = &mut item.act {
        *kind = match *kind {
            Kind::Load => Kind::Store,
            Kind::Store => Kind::Load,
            Kind::Assign => Kind::Assume,
            Kind::Assume => Kind::Assign,
            Kind::Read => Kind::Write,
            _ => Kind::Read,
        };
    }
}

/// Puts a bar of rank 1, which is in this state, before the item, so that it stands in an open row:
/// 12.
fn open_row(program: &mut Program, items: &mut Vec<Item>, at: usize, state: usize) {
    if program.transitions.len() == MAX_TRANSITIONS {
        return;
    }
    program.transitions.push(Transition {
        kind: Kind::Bar,
        from: state,
        to: state,
        register: None,
        expressions: Vec::new(),
    });
    let act = Act::Command {
        kind: Kind::Bar,
        rank: 1,
        transition: program.transitions.len() - 1,
    };
    let (place, value) = (None, None);
    items.insert(at, Item { act, place, value });
    items.truncate(MAX_ITEMS);
}
