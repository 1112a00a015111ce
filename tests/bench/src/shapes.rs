//! Records of few cells: with arrows that fall, with none that fall, and with a ring of all groups.

use crate::mixed::constant;
use second::expression::{Expression, Operator};
use second::program::{Kind, Program, Transition};
use second::record::{Act, Pop};

/// The cells that are stored to and read. Transition c stores to cell c, transition SHARED + c reads it, and the last one assigns.
const SHARED: usize = 32;
const ASSIGN: usize = 2 * SHARED;

/// A transition from state 0 to itself.
fn transition(kind: Kind, register: Option<usize>, expressions: Vec<Expression>) -> Transition {
    Transition {
        kind,
        from: 0,
        to: 0,
        register,
        expressions,
    }
}

/// Two ranks: each stores its rank to a cell, reads the other one's cell into its own, or assigns.
pub fn program() -> Program {
    let other = || {
        Expression::Binary(
            Operator::Difference,
            Box::new(constant(3)),
            Box::new(Expression::OwnRank),
        )
    };
    let store = |cell| transition(Kind::Store, None, vec![constant(cell), Expression::OwnRank]);
    let read = |cell| {
        let operands = vec![constant(cell), other(), constant(cell), constant(0)];
        transition(Kind::Read, None, operands)
    };
    let assign = transition(Kind::Assign, Some(0), vec![Expression::OwnRank]);
    Program {
        ranks: 2,
        cells: SHARED,
        registers: 1,
        queues: 1,
        states: 1,
        transitions: (0..SHARED)
            .map(store)
            .chain((0..SHARED).map(read))
            .chain([assign])
            .collect(),
    }
}

/// A rank stores to a cell.
fn store(rank: usize, number: usize) -> Act {
    Act::Command {
        kind: Kind::Store,
        rank,
        transition: number % SHARED,
    }
}

/// Rank 1 reads a cell of rank 2; its fetch, and its delivery.
fn read(number: usize) -> Act {
    Act::Command {
        kind: Kind::Read,
        rank: 1,
        transition: SHARED + number % SHARED,
    }
}

const HEAD: Pop = Pop {
    rank: 1,
    queue: 0,
    remote: None,
};
const FETCH: Act = Act::PopA(HEAD);
const DELIVERY: Act = Act::PopB(HEAD);

/// Arrows that fall: rank 1 reads cells to which rank 2 stores before they are fetched.
pub fn falling(items: usize) -> Vec<Act> {
    let count = items / 4;
    let mut acts: Vec<Act> = (0..count).map(read).collect();
    acts.extend((0..count).map(|number| store(2, number)));
    acts.extend(vec![FETCH; count]);
    acts.extend(vec![DELIVERY; count]);
    acts
}

/// No arrow falls: each cell is stored to, and then read at once.
pub fn rising(items: usize) -> Vec<Act> {
    let one = |number: usize| [store(2, number), read(number), FETCH, DELIVERY];
    (0..items / 4).flat_map(one).collect()
}

/// A ring through all groups: a read that is delivered after the rank's last command has stored to its cell.
pub fn ring(items: usize) -> Vec<Act> {
    let assign = Act::Command {
        kind: Kind::Assign,
        rank: 1,
        transition: ASSIGN,
    };
    let mut acts = vec![read(0)];
    acts.resize(items - 3, assign);
    acts.extend([store(1, 0), FETCH, DELIVERY]);
    acts
}
