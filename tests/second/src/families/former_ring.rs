//! Document 01's ring, which #111 replaces. Cases from before it were chosen by what this ring
//! lists, and tests tell by it where the ring is another now.

use crate::check::Accepted;
use crate::groups::arrows;
use crate::order::{sources, Verdict};

/// The groups of an accepted run's order, or of the ring that document 01 gives it.
pub fn former_groups(accepted: &Accepted) -> Vec<usize> {
    match &accepted.verdict {
        Verdict::Order(order) => order.clone(),
        Verdict::Ring(_) => {
            let arrows = arrows(&accepted.run.steps, &accepted.grouping.group_of);
            former_ring(&sources(accepted.grouping.groups.len(), &arrows))
        }
    }
}

/// Places groups as the order does until none is free; then walks back from the lowest unplaced
/// group to the lowest unplaced source each time until one repeats, and lists the part between.
pub fn former_ring(sources: &[Vec<usize>]) -> Vec<usize> {
    let left = unplaced(sources);
    let mut walk = vec![left[0]];
    loop {
        let back = &sources[walk[walk.len() - 1]];
        let back = *left
            .iter()
            .find(|group| back.contains(group))
            .expect("an unplaced group has an unplaced source");
        if let Some(first) = walk.iter().position(|&group| group == back) {
            return along_arrows(&walk[first..]);
        }
        walk.push(back);
    }
}

/// The groups that no order can place, rising.
pub fn unplaced(sources: &[Vec<usize>]) -> Vec<usize> {
    let mut left: Vec<usize> = (0..sources.len()).collect();
    loop {
        let held = |group: &usize| sources[*group].iter().any(|source| left.contains(source));
        let kept: Vec<usize> = left.iter().copied().filter(held).collect();
        if kept.len() == left.len() {
            return left;
        }
        left = kept;
    }
}

/// Turns the walked-back part round and begins it at its lowest number.
fn along_arrows(part: &[usize]) -> Vec<usize> {
    let mut ring: Vec<usize> = part.iter().rev().copied().collect();
    let lowest = (0..ring.len()).min_by_key(|&place| ring[place]);
    ring.rotate_left(lowest.unwrap_or(0));
    ring
}
