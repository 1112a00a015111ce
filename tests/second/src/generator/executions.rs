//! Random executions of a program, with random delays of popa and popb.

use super::rng::Rng;
use crate::machine::{Machine, Start, Step};
use crate::program::{Kind, Program};
use crate::record::{Act, Item, Pop};

/// How long an execution may be, and how its steps are mixed.
#[derive(Debug, Clone, Copy)]
pub struct Pace {
    /// The most items.
    pub items: usize,
    /// The most groups.
    pub groups: usize,
    /// How often a command is tried.
    pub command: usize,
    /// How often a popa is tried.
    pub popa: usize,
    /// How often a popb is tried.
    pub popb: usize,
    /// Of four items that may give a value, how many do on average.
    pub valued: usize,
    /// Whether each transfer is followed at once by its pops, as in a plain run.
    pub at_once: bool,
    /// Of four pops, how many name the remote rank of some entry on average.
    pub naming: usize,
}

/// After so many commands in a row that could not be taken, an execution ends.
const PATIENCE: usize = 24;

/// A random pace for at most so many items and groups; delays from none to all.
pub fn pace(rng: &mut Rng, items: usize, groups: usize) -> Pace {
    const WEIGHTS: [usize; 6] = [0, 0, 1, 2, 4, 16];
    let command = rng.within(1..=6);
    let popa = *rng.pick(&WEIGHTS);
    let popb = *rng.pick(&WEIGHTS);
    let valued = *rng.pick(&[0, 2, 4]);
    Pace {
        items,
        groups,
        command,
        popa,
        popb,
        valued,
        at_once: false,
        naming: 0,
    }
}

/// Gives every other access its value, by the steps that the items make, and no other item one.
pub fn give_values(rng: &mut Rng, items: &mut [Item], steps: &[Step]) {
    for (item, step) in items.iter_mut().zip(steps) {
        let value = step.access.map(|access| access.value);
        item.value = value.filter(|_| rng.chance(1, 2));
    }
}

/// An execution in the making.
struct Execution<'a> {
    /// The program.
    program: &'a Program,
    /// The ranks that take commands; in a row all do.
    busy: &'a [usize],
    /// Its state so far.
    machine: Machine,
    /// Its items so far.
    items: Vec<Item>,
    /// Its groups so far.
    groups: usize,
    /// The pace.
    pace: Pace,
}

/// A random execution from the start, which the replay accepts. Only busy ranks take commands, but
/// for the bars of rows.
pub fn execution(
    rng: &mut Rng,
    program: &Program,
    busy: &[usize],
    start: &Start,
    pace: Pace,
) -> Vec<Item> {
    let machine = Machine::new(program, start);
    let mut execution = Execution {
        program,
        busy,
        machine,
        items: Vec::new(),
        groups: 0,
        pace,
    };
    let mut failures = 0;
    while failures < PATIENCE && execution.groups < pace.groups {
        let total = pace.command + pace.popa + pace.popb;
        let drawn = rng.below(total);
        if drawn < pace.command {
            let taken = execution.try_command(rng);
            failures = if taken { 0 } else { failures + 1 };
        } else {
            execution.try_pop(rng, drawn < pace.command + pace.popa);
        }
    }
    execution.drain(rng);
    execution.items
}

impl Execution<'_> {
    /// How many pops are still to come.
    fn pending(&self) -> usize {
        let of = |rank: &crate::machine::RankState| {
            let requests: usize = rank.requests.iter().map(|queue| queue.len()).sum();
            let deliveries: usize = rank.deliveries.iter().map(|queue| queue.len()).sum();
            2 * requests + deliveries
        };
        self.machine.ranks.iter().map(of).sum()
    }

    /// Whether so many more items leave room for the pops to come.
    fn room_for(&self, more: usize) -> bool {
        self.items.len() + self.pending() + more <= self.pace.items
    }

    /// A random transition from the rank's state, of the kind if one is asked for.
    fn draw(&self, rng: &mut Rng, rank: usize, kind: Option<Kind>) -> Option<Act> {
        let state = self.machine.rank(rank).state;
        let fits = |transition: &usize| {
            let transition = &self.program.transitions[*transition];
            transition.from == state && kind.is_none_or(|kind| kind == transition.kind)
        };
        let fitting: Vec<usize> = (0..self.program.transitions.len()).filter(fits).collect();
        if fitting.is_empty() {
            return None;
        }
        let transition = *rng.pick(&fitting);
        let kind = self.program.transitions[transition].kind;
        Some(Act::Command {
            kind,
            rank,
            transition,
        })
    }

    /// Tries one command of a random rank, or a whole row; says whether it was taken.
    fn try_command(&mut self, rng: &mut Rng) -> bool {
        let rank = *rng.pick(self.busy);
        let Some(act) = self.draw(rng, rank, None) else {
            return false;
        };
        let taken = if act.kind() == Kind::Bar {
            self.try_row(rng)
        } else {
            self.room_for(3) && self.append(rng, act)
        };
        self.groups += usize::from(taken);
        if self.pace.at_once {
            self.drain(rng);
        }
        taken
    }

    /// Tries a barrier row: every rank must stand where a bar is.
    fn try_row(&mut self, rng: &mut Rng) -> bool {
        let draw = |rank| self.draw(rng, rank, Some(Kind::Bar));
        let row: Option<Vec<Act>> = (1..=self.program.ranks).map(draw).collect();
        let Some(row) = row else { return false };
        self.room_for(row.len()) && row.into_iter().all(|act| self.append(rng, act))
    }

    /// Tries a popa or a popb of a random queue that has one; says whether there was one.
    fn try_pop(&mut self, rng: &mut Rng, first: bool) -> bool {
        let mut possible = Vec::new();
        for rank in 1..=self.program.ranks {
            for queue in 0..self.program.queues {
                let state = self.machine.rank(rank);
                if first && !state.requests[queue].is_empty() {
                    possible.push(Act::PopA(Pop::of_all(rank, queue)));
                }
                if !first && !state.deliveries[queue].is_empty() {
                    possible.push(Act::PopB(Pop::of_all(rank, queue)));
                }
            }
        }
        if possible.is_empty() {
            return false;
        }
        let mut act = *rng.pick(&possible);
        if self.pace.naming > 0 && rng.chance(self.pace.naming, 4) {
            let remotes = self.machine.remotes_waiting(act);
            let named = Some(*rng.pick(&remotes));
            act.pop_mut().into_iter().for_each(|pop| pop.remote = named);
        }
        self.append(rng, act)
    }

    /// Does an act and appends its item; says whether the machine took it.
    fn append(&mut self, rng: &mut Rng, act: Act) -> bool {
        let Ok(step) = self.machine.perform(self.program, act) else {
            return false;
        };
        let place = step.access.map(|access| access.cell);
        let gives = rng.chance(self.pace.valued, 4);
        let value = step.access.map(|access| access.value).filter(|_| gives);
        self.items.push(Item { act, place, value });
        true
    }

    /// Empties all queues in a random order.
    fn drain(&mut self, rng: &mut Rng) {
        while self.pending() > 0 {
            let first = rng.chance(1, 2);
            self.try_pop(rng, first);
        }
    }
}
