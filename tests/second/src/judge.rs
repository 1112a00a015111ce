//! The judge of demand 3: plain runs and traces by document 01's words, without arrows.

use crate::check::Accepted;
use crate::machine::{Access, CommandId, Machine, Part, Run, Start, Step};
use crate::order::Verdict;
use crate::program::{Kind, Program};
use crate::record::{Act, Cell, Item, Pop};
use crate::replay::replay;
use std::collections::BTreeMap;

/// What an access is known by: its command and its part of it.
pub(crate) type AccessId = (CommandId, Part);

/// The run of these items if they are a plain run from the start.
pub fn plain_run(program: &Program, start: &Start, items: &[Item]) -> Option<Run> {
    let run = replay(program, start, items).ok()?;
    for (index, step) in run.steps.iter().enumerate() {
        if step.act.kind().is_transfer() {
            let kind_at = |at: usize| {
                run.steps
                    .get(at)
                    .map(|step| (step.act.kind(), step.command))
            };
            let followed = kind_at(index + 1) == Some((Kind::PopA, step.command))
                && kind_at(index + 2) == Some((Kind::PopB, step.command));
            if !followed {
                return None;
            }
        }
    }
    Some(run)
}

/// Whether two runs have the same trace.
pub fn same_trace(one: &Run, other: &Run) -> bool {
    transitions_of(one) == transitions_of(other)
        && places_of(one) == places_of(other)
        && same_conflict_order(one, other)
}

/// Whether any two accesses of one cell, one of them a write, come in the same order in both
/// runs, which have the same accesses.
fn same_conflict_order(one: &Run, other: &Run) -> bool {
    let in_other: BTreeMap<AccessId, usize> = accesses(other)
        .into_iter()
        .enumerate()
        .map(|(at, (id, _))| (id, at))
        .collect();
    let accesses: Vec<(usize, Access)> = accesses(one)
        .into_iter()
        .map(|(id, access)| (in_other[&id], access))
        .collect();
    let kept = |(first, earlier): &(usize, Access), (second, later): &(usize, Access)| {
        first < second || !conflicting(earlier, later)
    };
    let all_kept = |index: usize| {
        accesses[index + 1..]
            .iter()
            .all(|later| kept(&accesses[index], later))
    };
    (0..accesses.len()).all(all_kept)
}

/// Whether two accesses are of one cell and one of them writes.
fn conflicting(one: &Access, other: &Access) -> bool {
    one.cell == other.cell && (one.writes || other.writes)
}

/// The transitions each rank takes, in order.
fn transitions_of(run: &Run) -> BTreeMap<usize, Vec<usize>> {
    let mut taken: BTreeMap<usize, Vec<usize>> = BTreeMap::new();
    for step in &run.steps {
        if let Some(transition) = step.act.transition() {
            taken.entry(step.act.rank()).or_default().push(transition);
        }
    }
    taken
}

/// The accesses of a run in their order.
fn accesses(run: &Run) -> Vec<(AccessId, Access)> {
    let of = |step: &Step| {
        step.access
            .map(|access| ((step.command, access.part), access))
    };
    run.steps.iter().filter_map(of).collect()
}

/// The cell of each access.
pub(crate) fn places_of(run: &Run) -> BTreeMap<AccessId, Cell> {
    accesses(run)
        .into_iter()
        .map(|(id, access)| (id, access.cell))
        .collect()
}

/// The value of each access, given by the item or not.
fn values_of(run: &Run) -> BTreeMap<AccessId, u16> {
    accesses(run)
        .into_iter()
        .map(|(id, access)| (id, access.value))
        .collect()
}

/// The accesses that must come before each access: those at its cell, one of the two a write,
/// that come before it in the run.
pub(crate) fn conflicting_before(run: &Run) -> BTreeMap<AccessId, Vec<AccessId>> {
    let accesses = accesses(run);
    let mut before = BTreeMap::new();
    for (index, (id, later)) in accesses.iter().enumerate() {
        let earlier = accesses[..index]
            .iter()
            .filter(|(_, earlier)| conflicting(earlier, later));
        before.insert(*id, earlier.map(|(id, _)| *id).collect());
    }
    before
}

/// The building blocks of plain runs in which each rank takes a run's transitions in its order.
pub(crate) struct Blocks<'a> {
    /// The program.
    program: &'a Program,
    /// The command items of each rank, in order, rank 1 first: number in the run, and act.
    commands: Vec<Vec<(usize, Act)>>,
}

impl<'a> Blocks<'a> {
    /// The blocks for a run.
    pub(crate) fn of(program: &'a Program, run: &Run) -> Blocks<'a> {
        let mut commands = vec![Vec::new(); program.ranks];
        for (item, step) in run.steps.iter().enumerate() {
            if step.act.transition().is_some() {
                commands[step.act.rank() - 1].push((item, step.act));
            }
        }
        Blocks { program, commands }
    }

    /// The ranks that have a command left, by that command's number in the run. Searches try them
    /// so, and the first plain run found is the one with the lowest groups first.
    pub(crate) fn ranks_left(&self, machine: &Machine) -> Vec<usize> {
        let next = |rank| {
            self.next_command(machine, rank)
                .map(|(item, _)| (item, rank))
        };
        let mut ranks: Vec<(usize, usize)> = (1..=self.program.ranks).filter_map(next).collect();
        ranks.sort();
        ranks.into_iter().map(|(_, rank)| rank).collect()
    }

    /// The next command item of the rank, if it has one left.
    fn next_command(&self, machine: &Machine, rank: usize) -> Option<(usize, Act)> {
        self.commands[rank - 1]
            .get(machine.rank(rank).taken)
            .copied()
    }

    /// Takes the rank's next command as a whole block; none if no plain run goes on so.
    pub(crate) fn take(&self, machine: &mut Machine, rank: usize) -> Option<Vec<Step>> {
        let (_, act) = self.next_command(machine, rank)?;
        let mut steps = Vec::new();
        let mut acts = vec![act];
        if act.kind() == Kind::Bar {
            let next = |rank| self.next_command(machine, rank).map(|(_, act)| act);
            acts = (1..=self.program.ranks).map(next).collect::<Option<_>>()?;
        }
        if act.kind() == Kind::Bar && rank != 1 {
            return None;
        }
        for act in acts {
            steps.push(machine.perform(self.program, act).ok()?);
        }
        if act.kind().is_transfer() {
            let waits = |queue: &usize| !machine.rank(rank).requests[*queue].is_empty();
            let queue = (0..self.program.queues).find(waits)?;
            let pop = Pop::of_all(rank, queue);
            for act in [Act::PopA(pop), Act::PopB(pop)] {
                steps.push(machine.perform(self.program, act).ok()?);
            }
        }
        Some(steps)
    }
}

/// The items of these steps, placed as the replay says and without values.
pub(crate) fn items_of(steps: &[Step]) -> Vec<Item> {
    let place = |step: &Step| step.access.map(|access| access.cell);
    steps
        .iter()
        .map(|step| Item {
            act: step.act,
            place: place(step),
            value: None,
        })
        .collect()
}

/// A search through all plain runs in which each rank takes a run's transitions in its order.
struct Search<'a> {
    /// The blocks to put together.
    blocks: Blocks<'a>,
    /// The start.
    start: &'a Start,
    /// The run whose trace is looked for.
    run: &'a Run,
}

/// Searches all plain runs from the start for one with the run's trace.
pub fn find_plain_run(program: &Program, start: &Start, run: &Run) -> Option<Vec<Item>> {
    let search = Search {
        blocks: Blocks::of(program, run),
        start,
        run,
    };
    search.extend(&Machine::new(program, start), &mut Vec::new())
}

impl Search<'_> {
    /// Extends the steps so far by every possible block; at the end compares the traces.
    fn extend(&self, machine: &Machine, steps: &mut Vec<Step>) -> Option<Vec<Item>> {
        let ranks = self.blocks.ranks_left(machine);
        if ranks.is_empty() {
            let items = items_of(steps);
            return self.has_trace(&items).then_some(items);
        }
        for rank in ranks {
            let mut next = machine.clone();
            let Some(block) = self.blocks.take(&mut next, rank) else {
                continue;
            };
            let length = steps.len();
            steps.extend(block);
            let found = self.extend(&next, steps);
            if found.is_some() {
                return found;
            }
            steps.truncate(length);
        }
        None
    }

    /// Whether the items are a plain run with the looked-for trace.
    fn has_trace(&self, items: &[Item]) -> bool {
        plain_run(self.blocks.program, self.start, items)
            .is_some_and(|plain| same_trace(&plain, self.run))
    }
}

/// The items that an order of groups stands for: group after group, the record's own items.
pub fn written_out(accepted: &Accepted, order: &[usize]) -> Vec<Item> {
    let of_group = |&group: &usize| accepted.grouping.groups[group].items.iter();
    order
        .iter()
        .flat_map(of_group)
        .map(|&item| accepted.items[item])
        .collect()
}

/// Judges an order: written out it must be a plain run with the trace, values and last contents.
pub fn judge_order(accepted: &Accepted, order: &[usize]) -> Result<(), String> {
    let items = written_out(accepted, order);
    let Some(plain) = plain_run(&accepted.program, &accepted.start, &items) else {
        return Err("the order written out is no plain run".into());
    };
    if !same_trace(&plain, &accepted.run) {
        return Err("the order written out has another trace".into());
    }
    if values_of(&plain) != values_of(&accepted.run) {
        return Err("an access of the order has another value".into());
    }
    for (ours, theirs) in plain.last.ranks.iter().zip(&accepted.run.last.ranks) {
        if ours.cells != theirs.cells || ours.registers != theirs.registers {
            return Err("the order ends with other cells or registers".into());
        }
    }
    Ok(())
}

/// Judges a verdict by demand 3, with the plain run that a search found, if there is any: a ring
/// exactly when no plain run has the trace, and else the order with the lowest groups first.
pub fn judge_found(accepted: &Accepted, found: Option<Vec<Item>>) -> Result<(), String> {
    match (&accepted.verdict, found) {
        (Verdict::Ring(_), None) => Ok(()),
        (Verdict::Ring(ring), Some(_)) => {
            Err(format!("ring {ring:?}, but a plain run has the trace"))
        }
        (Verdict::Order(order), None) => {
            Err(format!("order {order:?}, but no plain run has the trace"))
        }
        (Verdict::Order(order), Some(found)) => {
            judge_order(accepted, order)?;
            if unnamed_acts(&found) != unnamed_acts(&written_out(accepted, order)) {
                return Err(format!(
                    "order {order:?}, but another takes lower groups first"
                ));
            }
            Ok(())
        }
    }
}

/// The acts of items; in a plain run a pop takes the same entry whether or not it names its remote
/// rank, and the searches' pops name none.
fn unnamed_acts(items: &[Item]) -> Vec<Act> {
    items.iter().map(|item| item.act.unnamed()).collect()
}

/// Judges a verdict by the exhaustive search.
pub fn judge(accepted: &Accepted) -> Result<(), String> {
    let found = find_plain_run(&accepted.program, &accepted.start, &accepted.run);
    judge_found(accepted, found)
}
