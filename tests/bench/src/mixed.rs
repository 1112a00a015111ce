//! Records of transfers that wait in many ways, for a program with all numbers at their limits.

use second::expression::{Expression, Operator};
use second::program::{Kind, Program, Transition};
use second::record::{Act, Pop};

/// N, A, R and Q: all at their limits.
const RANKS: usize = 16;
const CELLS: usize = 64;
const REGISTERS: usize = 16;
const QUEUES: usize = 4;
/// How many transitions are transfers: transition t uses queue t modulo `QUEUES`.
const TRANSFERS: usize = 16;
/// The transition that stores, after the transfers.
const STORE: usize = TRANSFERS;
/// How many transfers wait at the same time in the second part of a record: one for each queue.
const ROUND: usize = RANKS * QUEUES;
/// The rank and the transition whose queue gets long in the third part of a record.
const BUSY: Transfer = Transfer {
    rank: 3,
    transition: 2,
};

/// A transfer that a rank issues.
#[derive(Debug, Clone, Copy)]
struct Transfer {
    rank: usize,
    transition: usize,
}

impl Transfer {
    /// Its command.
    fn command(self, program: &Program) -> Act {
        Act::Command {
            kind: program.transitions[self.transition].kind,
            rank: self.rank,
            transition: self.transition,
        }
    }

    /// A pop of its queue's head.
    fn head(self) -> Pop {
        Pop::of_all(self.rank, self.transition % QUEUES)
    }

    /// Its fetch, of its queue's head.
    fn popa(self) -> Act {
        Act::PopA(self.head())
    }

    /// Its delivery, from its queue's head.
    fn popb(self) -> Act {
        Act::PopB(self.head())
    }
}

/// A constant.
pub fn constant(value: usize) -> Expression {
    Expression::Constant(value as u16)
}

/// A transfer with the opposite rank, a write or a read by turns.
fn transfer(number: usize) -> Transition {
    let sum = |first, second| Expression::Binary(Operator::Sum, Box::new(first), Box::new(second));
    let opposite = Expression::Binary(
        Operator::Difference,
        Box::new(constant(RANKS + 1)),
        Box::new(Expression::OwnRank),
    );
    let own = sum(
        Expression::Register(number % REGISTERS),
        constant(number * 3 % CELLS),
    );
    let remote = constant((number * 5 + 7) % CELLS);
    Transition {
        kind: [Kind::Write, Kind::Read][number / QUEUES % 2],
        from: 0,
        to: 0,
        register: None,
        expressions: vec![own, opposite, remote, constant(number % QUEUES)],
    }
}

/// The program: transfers between opposite ranks, and a store, all in one state.
pub fn program() -> Program {
    let store = Transition {
        kind: Kind::Store,
        from: 0,
        to: 0,
        register: None,
        expressions: vec![constant(CELLS - 1), Expression::OwnRank],
    };
    Program {
        ranks: RANKS,
        cells: CELLS,
        registers: REGISTERS,
        queues: QUEUES,
        states: 1,
        transitions: (0..TRANSFERS).map(transfer).chain([store]).collect(),
    }
}

/// Transfers that wait together, `waiting` at a time: their commands, then all popa, then all popb.
fn together(program: &Program, transfers: &[Transfer], waiting: usize) -> Vec<Act> {
    let acts = |chunk: &[Transfer]| {
        let commands = chunk.iter().map(|transfer| transfer.command(program));
        let fetches = chunk.iter().map(|transfer| transfer.popa());
        let deliveries = chunk.iter().map(|transfer| transfer.popb());
        commands
            .chain(fetches)
            .chain(deliveries)
            .collect::<Vec<Act>>()
    };
    transfers.chunks(waiting).flat_map(acts).collect()
}

/// What a record of so many items does: a third of its items are commands of transfers. Of these, a
/// third is done at once, a third waits in rounds over all queues of all ranks, and the last third
/// waits in one queue. One or two stores fill the rest.
pub fn acts(program: &Program, items: usize) -> Vec<Act> {
    let count = items / 3;
    let any = |number: usize| Transfer {
        rank: number % RANKS + 1,
        transition: number / RANKS % TRANSFERS,
    };
    let spread: Vec<Transfer> = (0..count - count / 3).map(any).collect();
    let (prompt, rounds) = spread.split_at(count / 3);
    let mut acts = together(program, prompt, 1);
    acts.extend(together(program, rounds, ROUND));
    acts.extend(together(program, &vec![BUSY; count / 3], count));
    let fill = Act::Command {
        kind: Kind::Store,
        rank: 1,
        transition: STORE,
    };
    acts.resize(items, fill);
    acts
}
