//! The arrows of a run with a ring, and what is asked of them.

use super::drawn_arrows;
use second::check::Accepted;
use second::order::{sources, steps_to, targets};

/// The arrows among groups, in both directions.
pub struct Graph {
    /// For each group those with an arrow to it, rising.
    pub sources: Vec<Vec<usize>>,
    /// For each group those that an arrow leads to from it, rising.
    pub targets: Vec<Vec<usize>>,
}

impl Graph {
    /// The graph of an accepted run.
    pub fn of(accepted: &Accepted) -> Graph {
        let (count, arrows) = (accepted.grouping.groups.len(), drawn_arrows(accepted));
        Graph {
            sources: sources(count, &arrows),
            targets: targets(count, &arrows),
        }
    }

    /// For each group how few groups a closed walk through it has, if there is any.
    pub fn rounds(&self) -> Vec<Option<usize>> {
        let round = |group: usize| {
            let steps = steps_to(group, &self.sources);
            let back = self.targets[group].iter().filter_map(|&next| steps[next]);
            back.min().map(|least| least + 1)
        };
        (0..self.sources.len()).map(round).collect()
    }

    /// A closed walk of so many groups, as few as any through this group has; `next` says which of
    /// the possible groups comes next each time.
    pub fn walk(
        &self,
        first: usize,
        length: usize,
        next: fn(&[usize]) -> Option<&usize>,
    ) -> Vec<usize> {
        let steps = steps_to(first, &self.sources);
        let mut walk = vec![first];
        for left in (1..length).rev() {
            let on = self.targets[walk[walk.len() - 1]].iter().copied();
            let possible: Vec<usize> = on.filter(|&next| steps[next] == Some(left)).collect();
            walk.extend(next(&possible));
        }
        walk
    }

    /// The same with all arrows turned round.
    pub fn reversed(self) -> Graph {
        Graph {
            sources: self.targets,
            targets: self.sources,
        }
    }
}

/// A closed walk begun at its lowest number.
pub fn from_its_lowest(mut walk: Vec<usize>) -> Vec<usize> {
    let lowest = walk.iter().min().copied();
    let place = walk.iter().position(|&group| Some(group) == lowest);
    walk.rotate_left(place.unwrap_or(0));
    walk
}
