//! The order or the ring, which is #111's of document 02: a shortest one.

use crate::groups::Pairs;
use std::collections::VecDeque;

/// Group numbers as an order of all groups or as a ring of some.
#[derive(Debug, Clone, PartialEq, Eq)]
pub enum Verdict {
    /// All groups, each after every group with an arrow to it.
    Order(Vec<usize>),
    /// A ring, listed along the arrows from its lowest number.
    Ring(Vec<usize>),
}

impl Verdict {
    /// The listed group numbers.
    pub fn groups(&self) -> &[usize] {
        match self {
            Verdict::Order(groups) | Verdict::Ring(groups) => groups,
        }
    }
}

/// Of so many groups at most all closed walks are searched for the ring.
pub const FEW_GROUPS: usize = 7;

/// Takes the lowest free group each time; where none is free, there is a ring.
pub fn decide(count: usize, arrows: &Pairs) -> Verdict {
    let sources = sources(count, arrows);
    let mut placed = vec![false; count];
    let mut order = Vec::new();
    while order.len() < count {
        let free =
            |group: &usize| !placed[*group] && sources[*group].iter().all(|&source| placed[source]);
        let Some(next) = (0..count).find(free) else {
            let ring = ring(count, arrows);
            return Verdict::Ring(ring.expect("no group is free, so a walk is closed"));
        };
        placed[next] = true;
        order.push(next);
    }
    Verdict::Order(order)
}

/// For each group the groups with an arrow to it, rising.
pub fn sources(count: usize, arrows: &Pairs) -> Vec<Vec<usize>> {
    let mut sources = vec![Vec::new(); count];
    for &(from, to) in arrows {
        sources[to].push(from);
    }
    sources
}

/// For each group the groups that an arrow leads to from it, rising.
pub fn targets(count: usize, arrows: &Pairs) -> Vec<Vec<usize>> {
    let mut targets = vec![Vec::new(); count];
    for &(from, to) in arrows {
        targets[from].push(to);
    }
    targets
}

/// The ring, if there is one.
fn ring(count: usize, arrows: &Pairs) -> Option<Vec<usize>> {
    if count <= FEW_GROUPS {
        ring_of_all_walks(count, arrows)
    } else {
        ring_by_breadth(count, arrows)
    }
}

/// The ring by #111's words: of all closed walks with as few groups as any has, each listed from
/// its lowest group, the one that comes first place by place. A walk of more steps than there are
/// groups has one twice, and so a shorter one in it.
pub fn ring_of_all_walks(count: usize, arrows: &Pairs) -> Option<Vec<usize>> {
    let targets = targets(count, arrows);
    (1..=count).find_map(|length| {
        let walks = closed_walks(&targets, length).into_iter();
        walks.map(|walk| from_its_lowest(&walk)).min()
    })
}

/// All closed walks of so many groups, each from every group of it.
pub fn closed_walks(targets: &[Vec<usize>], length: usize) -> Vec<Vec<usize>> {
    let mut walks: Vec<Vec<usize>> = (0..targets.len()).map(|group| vec![group]).collect();
    for _ in 1..length {
        let longer = |walk: &Vec<usize>| {
            let on = targets[walk[walk.len() - 1]].iter();
            on.map(|&next| [&walk[..], &[next]].concat())
                .collect::<Vec<_>>()
        };
        walks = walks.iter().flat_map(longer).collect();
    }
    let closed = |walk: &Vec<usize>| targets[walk[length - 1]].contains(&walk[0]);
    walks.into_iter().filter(closed).collect()
}

/// A closed walk begun at its lowest number.
pub(crate) fn from_its_lowest(walk: &[usize]) -> Vec<usize> {
    let mut listed = walk.to_vec();
    let lowest = (0..walk.len()).min_by_key(|&place| walk[place]);
    listed.rotate_left(lowest.unwrap_or(0));
    listed
}

/// The same ring for any number of groups, breadth first from each group. All groups of a ring of
/// the least length have such a ring through them, so the lowest group with one is the first place;
/// and each next place is the lowest group from which the rest of the way back is short enough.
pub fn ring_by_breadth(count: usize, arrows: &Pairs) -> Option<Vec<usize>> {
    let (sources, targets) = (sources(count, arrows), targets(count, arrows));
    let mut shortest: Option<(usize, usize)> = None;
    for group in 0..count {
        let steps = steps_to(group, &sources);
        let back = targets[group].iter().filter_map(|&next| steps[next]).min();
        if let Some(back) = back {
            if shortest.is_none_or(|(least, _)| back + 1 < least) {
                shortest = Some((back + 1, group));
            }
        }
    }
    let (length, lowest) = shortest?;
    let steps = steps_to(lowest, &sources);
    let mut ring = vec![lowest];
    for left in (1..length).rev() {
        let on = |next: &&usize| steps[**next] == Some(left);
        let next = targets[ring[ring.len() - 1]].iter().find(on)?;
        ring.push(*next);
    }
    Some(ring)
}

/// For each group the fewest arrows that lead from it to this one, if any do.
pub fn steps_to(group: usize, sources: &[Vec<usize>]) -> Vec<Option<usize>> {
    let mut steps = vec![None; sources.len()];
    steps[group] = Some(0);
    let mut reached = VecDeque::from([(group, 0)]);
    while let Some((group, taken)) = reached.pop_front() {
        for &source in &sources[group] {
            if steps[source].is_none() {
                steps[source] = Some(taken + 1);
                reached.push_back((source, taken + 1));
            }
        }
    }
    steps
}
