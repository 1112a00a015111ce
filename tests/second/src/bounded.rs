//! A second search for plain runs, for records of middle length: a block that would break the
//! trace is not taken, and what was tried in vain is not tried again. It uses no arrows either.

use crate::check::Accepted;
use crate::judge::{conflicting_before, items_of, judge_found, places_of, AccessId, Blocks};
use crate::machine::{Machine, Run, Start, Step};
use crate::program::Program;
use crate::record::{Cell, Item};
use std::collections::{BTreeMap, BTreeSet};

/// What a bounded search found.
#[derive(Debug, Clone, PartialEq, Eq)]
pub enum Found {
    /// A plain run with the trace.
    Run(Vec<Item>),
    /// No plain run has the trace.
    Nothing,
    /// The search was given up.
    GaveUp,
}

/// A search in the making.
struct Bounded<'a> {
    /// The blocks to put together.
    blocks: Blocks<'a>,
    /// The cell of each access in the record.
    places: BTreeMap<AccessId, Cell>,
    /// What must come before each access.
    before: BTreeMap<AccessId, Vec<AccessId>>,
    /// The steps so far.
    steps: Vec<Step>,
    /// The accesses so far.
    done: BTreeSet<AccessId>,
    /// How far each rank had come, wherever the search has been.
    tried: BTreeSet<Vec<usize>>,
    /// How many such places may be visited.
    limit: usize,
}

/// Judges a verdict by the bounded search; says whether it came to an end.
pub fn judge_bounded(accepted: &Accepted, limit: usize) -> Result<bool, String> {
    match find_bounded(&accepted.program, &accepted.start, &accepted.run, limit) {
        Found::Run(items) => judge_found(accepted, Some(items)).map(|()| true),
        Found::Nothing => judge_found(accepted, None).map(|()| true),
        Found::GaveUp => Ok(false),
    }
}

/// Searches for a plain run with the run's trace, visiting at most so many places.
pub fn find_bounded(program: &Program, start: &Start, run: &Run, limit: usize) -> Found {
    let mut search = Bounded {
        blocks: Blocks::of(program, run),
        places: places_of(run),
        before: conflicting_before(run),
        steps: Vec::new(),
        done: BTreeSet::new(),
        tried: BTreeSet::new(),
        limit,
    };
    if search.extend(&Machine::new(program, start)) {
        return Found::Run(items_of(&search.steps));
    }
    if search.tried.len() >= limit {
        return Found::GaveUp;
    }
    Found::Nothing
}

impl Bounded<'_> {
    /// Extends the steps so far by every block that keeps the trace; says whether the end is met.
    fn extend(&mut self, machine: &Machine) -> bool {
        let ranks = self.blocks.ranks_left(machine);
        if ranks.is_empty() {
            return true;
        }
        let taken = machine.ranks.iter().map(|rank| rank.taken).collect();
        if self.tried.len() >= self.limit || !self.tried.insert(taken) {
            return false;
        }
        for rank in ranks {
            let mut next = machine.clone();
            let Some(block) = self.blocks.take(&mut next, rank) else {
                continue;
            };
            let length = self.steps.len();
            if self.keep(block) && self.extend(&next) {
                return true;
            }
            self.undo(length);
        }
        false
    }

    /// Appends a block as far as it keeps the trace; says whether all of it does.
    fn keep(&mut self, block: Vec<Step>) -> bool {
        for step in block {
            if let Some(access) = step.access {
                let id = (step.command, access.part);
                let placed = self.places.get(&id) == Some(&access.cell);
                let before = self.before.get(&id).map_or(&[][..], Vec::as_slice);
                if !placed || !before.iter().all(|earlier| self.done.contains(earlier)) {
                    return false;
                }
                self.done.insert(id);
            }
            self.steps.push(step);
        }
        true
    }

    /// Takes back all steps beyond this length.
    fn undo(&mut self, length: usize) {
        for step in self.steps.drain(length..) {
            if let Some(access) = step.access {
                self.done.remove(&(step.command, access.part));
            }
        }
    }
}
