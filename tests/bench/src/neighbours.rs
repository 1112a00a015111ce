//! Records in which a rank's transfers overtake each other: to every rank on one queue, and each pop names the rank whose entry stands last.

use crate::mixed::constant;
use second::program::{Kind, Program, Transition};
use second::record::{Act, Pop};

/// The ranks, of which the first issues all transfers; transition n writes its cell n to cell n of rank n + 1.
const RANKS: usize = 16;
/// The transition that stores, after the transfers.
const STORE: usize = RANKS;

/// A transition from state 0 to itself.
fn transition(kind: Kind, operands: [usize; 4], count: usize) -> Transition {
    Transition {
        kind,
        from: 0,
        to: 0,
        register: None,
        expressions: operands[..count].iter().map(|&n| constant(n)).collect(),
    }
}

/// Writes to every rank, and a store of 1 to the last cell.
pub fn program() -> Program {
    let write = |n| transition(Kind::Write, [n, n + 1, n, 0], 4);
    let store = transition(Kind::Store, [RANKS - 1, 1, 0, 0], 2);
    Program {
        ranks: RANKS,
        cells: RANKS,
        registers: 1,
        queues: 1,
        states: 1,
        transitions: (0..RANKS).map(write).chain([store]).collect(),
    }
}

/// A command of rank 1.
fn command(kind: Kind, transition: usize) -> Act {
    Act::Command {
        kind,
        rank: 1,
        transition,
    }
}

/// Where a pop for a rank takes its entry from.
fn towards(remote: usize) -> Pop {
    Pop {
        rank: 1,
        queue: 0,
        remote: Some(remote),
    }
}

/// What a record of so many items does: in each round a write to every rank, the fetches from the newest request to the oldest, and the deliveries
/// from the newest fetch to the oldest. Stores fill the rest.
pub fn acts(items: usize) -> Vec<Act> {
    let round = || {
        let commands = (0..RANKS).map(|n| command(Kind::Write, n));
        let fetches = (1..=RANKS).rev().map(|rank| Act::PopA(towards(rank)));
        let deliveries = (1..=RANKS).map(|rank| Act::PopB(towards(rank)));
        commands.chain(fetches).chain(deliveries)
    };
    let mut acts: Vec<Act> = (0..items / (3 * RANKS)).flat_map(|_| round()).collect();
    acts.resize(items, command(Kind::Store, STORE));
    acts
}
