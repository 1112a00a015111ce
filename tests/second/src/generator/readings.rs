//! Readings at the start (#103): random ones, and transitions that use what they load.

use super::rng::Rng;
use crate::expression::{Expression, Operator};
use crate::limits::MAX_TRANSITIONS;
use crate::machine::Start;
use crate::program::{Kind, Program, Transition};

/// One in three times a start with readings, beside whose program there may stand transitions that
/// use them; else document 01's.
pub fn now_and_then(rng: &mut Rng, program: &mut Program) -> Start {
    if !rng.chance(1, 3) {
        return Start::zero(program);
    }
    let start = readings(rng, program);
    if rng.chance(2, 3) {
        add_uses(rng, program, &start);
    }
    start
}

/// A start with readings in all cells, in some, or in a few, those at the ends among them.
pub fn readings(rng: &mut Rng, program: &Program) -> Start {
    let mut cells = vec![0; program.ranks * program.cells];
    let last = program.cells - 1;
    let of_four = *rng.pick(&[0, 0, 1, 2, 4]);
    for (at, cell) in cells.iter_mut().enumerate() {
        let at_end = [0, last].contains(&(at % program.cells));
        if rng.chance(of_four, 4) || (at_end && rng.chance(1, 3)) {
            *cell = reading(rng, program);
        }
    }
    Start::with_cells(program, &cells)
}

/// A reading: a number that a cell, rank or queue may have, or any value, 0 now and then.
fn reading(rng: &mut Rng, program: &Program) -> u16 {
    let most = program.ranks.min(program.cells).min(4);
    if rng.chance(1, 2) {
        rng.within(1..=most) as u16
    } else {
        rng.value()
    }
}

/// Appends to some states a load of a low cell, and commands that go by the register it went to:
/// an assume of what some reading is, a store of it, and a store and a write at the cell that it
/// names.
fn add_uses(rng: &mut Rng, program: &mut Program, start: &Start) {
    for from in 0..program.states.min(4) {
        let register = rng.below(program.registers);
        let cell = rng.below(program.cells.min(4));
        let rank = rng.below(program.ranks);
        let value = start.0[rank].cells[cell];
        let other = Expression::Constant(rng.below(program.cells.min(4)) as u16);
        let loaded = Expression::Register(register);
        let is_value =
            Expression::binary(Operator::Equal, loaded.clone(), Expression::Constant(value));
        let remote = Expression::Constant((rank + 1) as u16);
        let queue = Expression::Constant(0);
        let used = match rng.below(5) {
            0 => (Kind::Assume, vec![is_value]),
            1 => (Kind::Assume, vec![loaded]),
            2 => (Kind::Store, vec![other, loaded]),
            3 => (Kind::Store, vec![loaded, remote]),
            _ => (Kind::Write, vec![loaded, remote, other, queue]),
        };
        let load = vec![Expression::Constant(cell as u16)];
        let to = rng.below(program.states);
        append(program, from, to, (Kind::Load, load), Some(register));
        append(program, to, from, used, None);
    }
}

/// Appends a transition if there is room for it.
fn append(
    program: &mut Program,
    from: usize,
    to: usize,
    (kind, expressions): (Kind, Vec<Expression>),
    register: Option<usize>,
) {
    if program.transitions.len() < MAX_TRANSITIONS {
        program.transitions.push(Transition {
            kind,
            from,
            to,
            register,
            expressions,
        });
    }
}
