//! What runs and inputs are made of. Each corpus file is made as it was when its request landed, so
//! that it comes out the same: nothing is drawn for a request that came later.

use super::expressions::Sums;
use crate::limits::{MAX_RANKS, MAX_SHORT_MAP_RANKS};
use crate::program::Program;

/// The papers, so far as runs and inputs go by them.
#[derive(Debug, Clone, Copy, PartialEq, Eq, PartialOrd, Ord)]
pub enum Edition {
    /// Document 01 alone.
    Document01,
    /// #105, #107 and #108 too: programs of more than 8 ranks and of more than 128 transitions, and
    /// transfers that overtake each other. Sums come round still.
    Before102,
    /// #102 too: sums at the edges of the range.
    Before103,
    /// #103 too: readings at the start.
    Before111,
    /// #111 too: runs with several rings.
    Today,
}

impl Edition {
    /// The largest N.
    pub fn most_ranks(self) -> usize {
        match self {
            Edition::Document01 => MAX_SHORT_MAP_RANKS,
            _ => MAX_RANKS,
        }
    }

    /// How sums, differences and products are drawn.
    pub fn sums(self) -> Sums {
        if self < Edition::Before103 {
            Sums::Dated
        } else {
            Sums::Edged
        }
    }

    /// The program with sums as they are evaluated.
    pub fn evaluated(self, program: Program) -> Program {
        match self.sums() {
            Sums::Dated => program.dated(),
            Sums::Edged => program,
        }
    }
}
