//! Groups and arrows (document 01, section of that name; document 001, section 3).

use crate::machine::{CommandId, Step};
use crate::program::Kind;
use std::collections::{BTreeMap, BTreeSet};

/// A group: a transfer with its pops, a barrier row, or one other command item.
#[derive(Debug, Clone, PartialEq, Eq)]
pub struct Group {
    /// The kind of its command.
    pub kind: Kind,
    /// Its rank, or 0 for a barrier.
    pub rank: usize,
    /// Its items by number, rising.
    pub items: Vec<usize>,
}

/// The groups of a run, and the group of each item.
#[derive(Debug, Clone, PartialEq, Eq)]
pub struct Grouping {
    /// The groups, numbered by their first item.
    pub groups: Vec<Group>,
    /// For each item the number of its group.
    pub group_of: Vec<usize>,
}

/// Arrows between groups, or pairs of items, from the first to the second.
pub type Pairs = BTreeSet<(usize, usize)>;

/// Gathers the items of an accepted run into groups.
pub fn gather(steps: &[Step]) -> Grouping {
    let mut groups: Vec<Group> = Vec::new();
    let mut group_of: Vec<usize> = Vec::new();
    let mut group_of_command: BTreeMap<CommandId, usize> = BTreeMap::new();
    for (item, step) in steps.iter().enumerate() {
        let number = match step.act.kind() {
            Kind::PopA | Kind::PopB => group_of_command[&step.command],
            Kind::Bar if step.act.rank() != 1 => group_of[item - 1],
            kind => {
                let rank = if kind == Kind::Bar {
                    0
                } else {
                    step.act.rank()
                };
                groups.push(Group {
                    kind,
                    rank,
                    items: Vec::new(),
                });
                groups.len() - 1
            }
        };
        group_of_command.entry(step.command).or_insert(number);
        groups[number].items.push(item);
        group_of.push(number);
    }
    Grouping { groups, group_of }
}

/// Program order: each command item of a rank with that rank's next command item.
pub fn program_order(steps: &[Step]) -> Pairs {
    let mut pairs = Pairs::new();
    let mut latest: BTreeMap<usize, usize> = BTreeMap::new();
    for (item, step) in steps.iter().enumerate() {
        if step.act.transition().is_none() {
            continue;
        }
        if let Some(before) = latest.insert(step.act.rank(), item) {
            pairs.insert((before, item));
        }
    }
    pairs
}

/// Conflicts: two accesses of one cell, at least one a write, with no write to it between.
pub fn conflicts(steps: &[Step]) -> Pairs {
    let mut pairs = Pairs::new();
    for (first, step) in steps.iter().enumerate() {
        let Some(earlier) = step.access else { continue };
        for (second, step) in steps.iter().enumerate().skip(first + 1) {
            let Some(later) = step.access else { continue };
            if later.cell != earlier.cell {
                continue;
            }
            if earlier.writes || later.writes {
                pairs.insert((first, second));
            }
            if later.writes {
                break;
            }
        }
    }
    pairs
}

/// The arrows that pairs of items draw between different groups.
pub fn arrows_of(pairs: &Pairs, group_of: &[usize]) -> Pairs {
    pairs
        .iter()
        .map(|&(first, second)| (group_of[first], group_of[second]))
        .filter(|(first, second)| first != second)
        .collect()
}

/// All arrows of an accepted run: by program order and by conflict.
pub fn arrows(steps: &[Step], group_of: &[usize]) -> Pairs {
    let mut all = arrows_of(&program_order(steps), group_of);
    all.extend(arrows_of(&conflicts(steps), group_of));
    all
}
