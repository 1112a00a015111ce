//! The machine: what its state is made of, and what an item's step is.

use crate::program::Program;
use crate::record::{Act, Cell};
use std::collections::VecDeque;

/// A command, known by its rank and its place in that rank's sequence of command items.
#[derive(Debug, Clone, Copy, PartialEq, Eq, PartialOrd, Ord)]
pub struct CommandId {
    /// The rank that took it.
    pub rank: usize,
    /// How many command items of that rank came before it.
    pub place: usize,
}

/// The part of a command that an access is.
#[derive(Debug, Clone, Copy, PartialEq, Eq, PartialOrd, Ord)]
pub enum Part {
    /// The load or store itself.
    Command,
    /// The popa of a transfer.
    Fetch,
    /// The popb of a transfer.
    Delivery,
}

/// One access to a cell.
#[derive(Debug, Clone, Copy, PartialEq, Eq)]
pub struct Access {
    /// The part of its command that it is.
    pub part: Part,
    /// The cell read or written.
    pub cell: Cell,
    /// The value read or written there.
    pub value: u16,
    /// Whether it writes.
    pub writes: bool,
}

/// What one item did.
#[derive(Debug, Clone, Copy, PartialEq, Eq)]
pub struct Step {
    /// The item's act.
    pub act: Act,
    /// The command it is or belongs to.
    pub command: CommandId,
    /// Its access, if it has one.
    pub access: Option<Access>,
}

/// A request: copy the source cell to the destination cell.
#[derive(Debug, Clone, Copy, PartialEq, Eq)]
pub struct Request {
    /// The command that issued it.
    pub command: CommandId,
    /// The remote rank: the one written to, or for a read the one read from.
    pub remote: usize,
    /// The cell to be read.
    pub source: Cell,
    /// The cell to be written.
    pub destination: Cell,
}

/// A delivery: write the fetched value to the destination cell.
#[derive(Debug, Clone, Copy, PartialEq, Eq)]
pub struct Delivery {
    /// The command that issued the request.
    pub command: CommandId,
    /// The request's remote rank.
    pub remote: usize,
    /// The cell to be written.
    pub destination: Cell,
    /// The fetched value.
    pub value: u16,
}

/// What one rank starts with.
#[derive(Debug, Clone, PartialEq, Eq)]
pub struct RankStart {
    /// The control state.
    pub state: usize,
    /// The cells.
    pub cells: Vec<u16>,
    /// The registers.
    pub registers: Vec<u16>,
}

/// What all ranks start with, rank 1 first.
#[derive(Debug, Clone, PartialEq, Eq)]
pub struct Start(pub Vec<RankStart>);

impl Start {
    /// Document 01's start: state 0, cells and registers all 0.
    pub fn zero(program: &Program) -> Start {
        let rank = RankStart {
            state: 0,
            cells: vec![0; program.cells],
            registers: vec![0; program.registers],
        };
        Start(vec![rank; program.ranks])
    }

    /// The start with these cells, of which there are N × A at least, rank 1 first; else as document
    /// 01's.
    pub fn with_cells(program: &Program, cells: &[u16]) -> Start {
        let mut start = Start::zero(program);
        for (rank, cells) in start.0.iter_mut().zip(cells.chunks_exact(program.cells)) {
            rank.cells.copy_from_slice(cells);
        }
        start
    }

    /// All cells, rank 1 first, as the check fills a cell list.
    pub fn cells(&self) -> Vec<u16> {
        self.0.iter().flat_map(|rank| rank.cells.clone()).collect()
    }
}

/// The present state of one rank.
#[derive(Debug, Clone, PartialEq, Eq)]
pub struct RankState {
    /// The control state.
    pub state: usize,
    /// The cells.
    pub cells: Vec<u16>,
    /// The registers.
    pub registers: Vec<u16>,
    /// The requests of each queue, the first appended first.
    pub requests: Vec<VecDeque<Request>>,
    /// The deliveries of each queue, the first appended first.
    pub deliveries: Vec<VecDeque<Delivery>>,
    /// How many command items the rank has taken.
    pub taken: usize,
}

/// The present state of the whole machine.
#[derive(Debug, Clone, PartialEq, Eq)]
pub struct Machine {
    /// The ranks, rank 1 first.
    pub ranks: Vec<RankState>,
    /// The rank whose bar must come next, while a row is open.
    pub open_row: Option<usize>,
}

/// An accepted run: what each item did, and the machine after the last.
#[derive(Debug, Clone, PartialEq, Eq)]
pub struct Run {
    /// One step for each item.
    pub steps: Vec<Step>,
    /// The machine at the end.
    pub last: Machine,
}

impl Machine {
    /// The machine before the first item: as at the start, all queues empty.
    pub fn new(program: &Program, start: &Start) -> Machine {
        let rank = |rank: &RankStart| RankState {
            state: rank.state,
            cells: rank.cells.clone(),
            registers: rank.registers.clone(),
            requests: vec![VecDeque::new(); program.queues],
            deliveries: vec![VecDeque::new(); program.queues],
            taken: 0,
        };
        Machine {
            ranks: start.0.iter().map(rank).collect(),
            open_row: None,
        }
    }

    /// The state of a rank.
    pub fn rank(&self, rank: usize) -> &RankState {
        &self.ranks[rank - 1]
    }

    /// The state of a rank, to be changed.
    pub fn rank_mut(&mut self, rank: usize) -> &mut RankState {
        &mut self.ranks[rank - 1]
    }

    /// What a cell holds.
    pub fn read_cell(&self, cell: Cell) -> u16 {
        self.rank(cell.rank).cells[cell.cell]
    }

    /// Puts a value into a cell.
    pub fn write_cell(&mut self, cell: Cell, value: u16) {
        self.rank_mut(cell.rank).cells[cell.cell] = value;
    }

    /// The remote ranks of the entries that a pop takes one of, the oldest first; none for a command.
    pub fn remotes_waiting(&self, act: Act) -> Vec<usize> {
        match act {
            Act::Command { .. } => Vec::new(),
            Act::PopA(pop) => {
                let requests = self.rank(pop.rank).requests[pop.queue].iter();
                requests.map(|request| request.remote).collect()
            }
            Act::PopB(pop) => {
                let deliveries = self.rank(pop.rank).deliveries[pop.queue].iter();
                deliveries.map(|delivery| delivery.remote).collect()
            }
        }
    }

    /// Whether every queue of every rank is empty.
    pub fn queues_empty(&self) -> bool {
        self.ranks.iter().all(|rank| {
            rank.requests.iter().all(VecDeque::is_empty)
                && rank.deliveries.iter().all(VecDeque::is_empty)
        })
    }
}
