//! The sparse programs that the cases of #107 have, with the parts that they are put together from.

pub use crate::families::parts::{
    assign, assume, at, bar, command, giving, load, popa, popb, read, store, with_operand, write,
};
use crate::program::{Program, Transition};

/// What a program is filled up with: a bar from state 1, where no rank comes, of four bytes.
pub fn idle() -> Transition {
    Transition {
        from: 1,
        to: 1,
        ..bar()
    }
}

/// The transition's number of bytes if it is an idle one.
pub const IDLE_BYTES: usize = 4;
/// Ranks of a sparse program.
pub const RANKS: usize = 2;
/// Cells of each rank of a sparse program.
pub const CELLS: usize = 8;

/// A program of so many transitions, idle but for those placed: N 2, A 8, R 1, Q 1, S 2.
pub fn sparse(total: usize, placed: &[(usize, Transition)]) -> Program {
    let mut transitions = vec![idle(); total];
    for (number, transition) in placed {
        transitions[*number] = transition.clone();
    }
    Program {
        ranks: RANKS,
        cells: CELLS,
        registers: 1,
        queues: 1,
        states: 2,
        transitions,
    }
}

/// The cell list of a sparse program: these cells have these values, all others 0.
pub fn cells(values: &[((usize, usize), u16)]) -> Vec<u16> {
    let mut cells = vec![0; RANKS * CELLS];
    for &((rank, cell), value) in values {
        cells[CELLS * (rank - 1) + cell] = value;
    }
    cells
}
