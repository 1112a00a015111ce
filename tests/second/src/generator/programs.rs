//! Random readable programs.

use super::edition::Edition;
use super::expressions::{expression, Role, Scope};
use super::rng::Rng;
use crate::program::{Kind, Program, Transition};

/// The largest numbers a random program may have.
#[derive(Debug, Clone, Copy)]
pub struct Size {
    /// The largest N.
    pub ranks: usize,
    /// The largest A.
    pub cells: usize,
    /// The largest R.
    pub registers: usize,
    /// The largest Q.
    pub queues: usize,
    /// The largest S.
    pub states: usize,
    /// The largest T.
    pub transitions: usize,
    /// The most operators in an expression, but for those at an edge; 7 make 15 tokens.
    pub operators: usize,
}

/// Small programs, for records that the exhaustive judge can take.
pub const SMALL: Size = Size {
    ranks: 3,
    cells: 3,
    registers: 2,
    queues: 2,
    states: 4,
    transitions: 9,
    operators: 2,
};
/// Programs of two or three ranks, for records of middle length.
pub const MIDDLE: Size = Size {
    ranks: 3,
    cells: 4,
    registers: 4,
    queues: 2,
    states: 6,
    transitions: 16,
    operators: 4,
};
/// Programs up to all the limits of document 01; `widen` takes them beyond its T, `many_ranks`
/// beyond its N.
pub const WIDE: Size = Size {
    ranks: 8,
    cells: 64,
    registers: 16,
    queues: 4,
    states: 64,
    transitions: 128,
    operators: 7,
};
/// Programs of many ranks and few cells, where accesses meet often.
pub const CROWDED: Size = Size {
    ranks: 8,
    cells: 3,
    registers: 4,
    queues: 4,
    states: 6,
    transitions: 20,
    operators: 7,
};

/// The kinds of transitions, each as often as it is to be drawn.
const WEIGHTED_KINDS: [Kind; 18] = [
    Kind::Load,
    Kind::Load,
    Kind::Load,
    Kind::Store,
    Kind::Store,
    Kind::Store,
    Kind::Store,
    Kind::Assign,
    Kind::Assume,
    Kind::Assume,
    Kind::Read,
    Kind::Read,
    Kind::Read,
    Kind::Write,
    Kind::Write,
    Kind::Write,
    Kind::Write,
    Kind::Bar,
];

/// The ranks of a program, all of them busy.
pub fn every_rank(ranks: usize) -> Vec<usize> {
    (1..=ranks).collect()
}

/// A random readable program of at most this size, rather of several ranks than of one.
pub fn program(rng: &mut Rng, size: Size, edition: Edition) -> Program {
    let ranks = rng.within(1..=size.ranks).max(rng.within(1..=size.ranks));
    program_of(rng, size, ranks, &every_rank(ranks), edition)
}

/// A random readable program of so many ranks and else at most this size; constants name busy ranks.
pub fn program_of(
    rng: &mut Rng,
    size: Size,
    ranks: usize,
    busy: &[usize],
    edition: Edition,
) -> Program {
    let mut program = Program {
        ranks,
        cells: rng.within(1..=size.cells),
        registers: rng.within(1..=size.registers),
        queues: rng.within(1..=size.queues),
        states: rng.within(1..=size.states),
        transitions: Vec::new(),
    };
    let count = rng
        .within(0..=size.transitions)
        .max(program.states.min(size.transitions));
    for number in 0..count {
        let scope = Scope {
            program: &program,
            busy,
            registers: &[],
            sums: edition.sums(),
        };
        let transition = transition(rng, scope, number, size.operators);
        program.transitions.push(transition);
    }
    edition.evaluated(program)
}

/// A random transition; the first S of them leave each state once and lead on to the next.
pub fn transition(rng: &mut Rng, scope: Scope, number: usize, operators: usize) -> Transition {
    let states = scope.program.states;
    let from = if number < states {
        number
    } else {
        rng.below(states)
    };
    let to = if rng.chance(3, 4) {
        (from + 1) % states
    } else {
        rng.below(states)
    };
    let kind = *rng.pick(&WEIGHTED_KINDS);
    let roles: &[Role] = match kind {
        Kind::Load => &[Role::Cell],
        Kind::Store => &[Role::Cell, Role::Value],
        Kind::Assign => &[Role::Value],
        Kind::Assume => &[Role::Condition],
        Kind::Read | Kind::Write => &[Role::Cell, Role::Rank, Role::Cell, Role::Queue],
        Kind::PopA | Kind::PopB | Kind::Bar => &[],
    };
    let takes_register = matches!(kind, Kind::Load | Kind::Assign);
    let register = takes_register.then(|| rng.below(scope.program.registers));
    let expressions = roles
        .iter()
        .map(|&role| {
            let operators = rng.within(0..=operators);
            expression(rng, scope, role, operators)
        })
        .collect();
    Transition {
        kind,
        from,
        to,
        register,
        expressions,
    }
}
