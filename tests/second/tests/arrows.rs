//! The arrows and the ring against their definitions, written out pair by pair; the ring also found
//! in both ways, in runs, in all small graphs and in random ones.

mod common;

use common::accepted;
use second::check::Accepted;
use second::generator::rings as ringed;
use second::generator::rng::Rng;
use second::generator::{many_ranks, middle_run, neighbours, small_run, Maker};
use second::groups::{arrows, Pairs};
use second::machine::Step;
use second::order::{decide, ring_by_breadth, ring_of_all_walks, Verdict};
use std::collections::BTreeSet;

/// Whether the second item is the next command item of the first one's rank.
fn program_order(steps: &[Step], first: usize, second: usize) -> bool {
    let command = |item: usize| steps[item].act.transition().is_some();
    let rank = |item: usize| steps[item].act.rank();
    let same = |item: usize| command(item) && rank(item) == rank(first);
    command(first) && same(second) && !(first + 1..second).any(same)
}

/// Whether the two items conflict with no write to their cell between.
fn conflict(steps: &[Step], first: usize, second: usize) -> bool {
    let (Some(one), Some(other)) = (steps[first].access, steps[second].access) else {
        return false;
    };
    let write_there = |item: usize| {
        steps[item]
            .access
            .is_some_and(|access| access.writes && access.cell == one.cell)
    };
    one.cell == other.cell && (one.writes || other.writes) && !(first + 1..second).any(write_there)
}

/// All arrows by the definition.
fn defined_arrows(accepted: &Accepted) -> Pairs {
    let (steps, group_of) = (&accepted.run.steps, &accepted.grouping.group_of);
    let mut all = Pairs::new();
    for first in 0..steps.len() {
        for second in first + 1..steps.len() {
            let drawn = program_order(steps, first, second) || conflict(steps, first, second);
            if drawn && group_of[first] != group_of[second] {
                all.insert((group_of[first], group_of[second]));
            }
        }
    }
    all
}

/// The groups that no order can place: taken away are, again and again, those without a source.
fn unplaced(count: usize, arrows: &Pairs) -> Vec<usize> {
    let mut left: Vec<usize> = (0..count).collect();
    loop {
        let held = |&group: &usize| left.iter().any(|&from| arrows.contains(&(from, group)));
        let kept: Vec<usize> = left.iter().copied().filter(held).collect();
        if kept.len() == left.len() {
            return left;
        }
        left = kept;
    }
}

/// Whether exactly so many arrows lead from one group to another.
fn leads(arrows: &Pairs, from: usize, to: usize, steps: usize) -> bool {
    let mut reached = BTreeSet::from([from]);
    for _ in 0..steps {
        let on = |&&(source, _): &&(usize, usize)| reached.contains(&source);
        reached = arrows.iter().filter(on).map(|&(_, to)| to).collect();
    }
    reached.contains(&to)
}

/// Fails unless arrows lead along the ring, no closed walk has fewer groups, and none of as many
/// comes before it place by place: none through a lower group, and none that is the same up to a
/// place and has a lower group there.
fn assert_shortest(count: usize, arrows: &Pairs, ring: &[usize]) {
    let length = ring.len();
    let along = |place: usize| arrows.contains(&(ring[place], ring[(place + 1) % length]));
    assert!((0..length).all(along), "{ring:?} in {arrows:?}");
    let closed = |group: usize, steps: usize| leads(arrows, group, group, steps);
    let fewer = (0..count).any(|group| (1..length).any(|steps| closed(group, steps)));
    assert!(!fewer, "{ring:?} in {arrows:?}");
    assert!(
        !(0..ring[0]).any(|group| closed(group, length)),
        "{ring:?} in {arrows:?}"
    );
    for place in 1..length {
        let before = |&group: &usize| arrows.contains(&(ring[place - 1], group));
        let back = |group: usize| leads(arrows, group, ring[0], length - place);
        assert!(
            !(0..ring[place]).filter(before).any(back),
            "{ring:?} in {arrows:?}"
        );
    }
}

/// Graphs of at most so many groups have their ring found in both ways.
const WALKED: usize = 9;

/// Compares the ring of a graph with its definition, found in both ways if all closed walks can be
/// searched; says whether there is one.
fn compare_ring(count: usize, arrows: &Pairs) -> bool {
    let ring = ring_by_breadth(count, arrows);
    if count <= WALKED {
        assert_eq!(ring_of_all_walks(count, arrows), ring, "{arrows:?}");
    }
    assert_eq!(
        ring.is_none(),
        unplaced(count, arrows).is_empty(),
        "{arrows:?}"
    );
    if let Some(ring) = &ring {
        assert_shortest(count, arrows, ring);
        assert_eq!(decide(count, arrows), Verdict::Ring(ring.clone()));
    }
    ring.is_some()
}

/// Compares arrows and verdict of one run with their definitions; says whether it has a ring.
fn compare(accepted: &Accepted) -> bool {
    let count = accepted.grouping.groups.len();
    let defined = defined_arrows(accepted);
    assert_eq!(
        arrows(&accepted.run.steps, &accepted.grouping.group_of),
        defined
    );
    let has_ring = compare_ring(count, &defined);
    assert_eq!(matches!(accepted.verdict, Verdict::Ring(_)), has_ring);
    has_ring
}

#[test]
fn arrows_and_rings_are_as_defined() {
    let mut rings = 0;
    for index in 0..4_000 {
        rings += usize::from(compare(&accepted(ringed::small_run, 35, index)));
        rings += usize::from(compare(&accepted(small_run, 31, index)));
        rings += usize::from(compare(&accepted(middle_run, 32, index)));
        rings += usize::from(compare(&accepted(many_ranks::small_run, 33, index)));
        rings += usize::from(compare(&accepted(neighbours::small_run, 34, index)));
    }
    println!("arrows: 20000 runs as defined, {rings} of them rings");
    assert!(rings >= 4_000);
}

#[test]
fn rings_of_longer_runs_are_as_defined() {
    let (mut rings, mut longest) = (0, 0);
    for index in 0..250 {
        let made: Maker = [ringed::any_run, neighbours::any_run][index as usize % 2];
        let accepted = accepted(made, 36, index);
        rings += usize::from(compare(&accepted));
        longest = longest.max(accepted.grouping.groups.len());
    }
    println!("arrows: 250 longer runs, {rings} of them rings, up to {longest} groups");
    assert!(rings >= 100 && longest >= 200);
}

/// The graph of so many groups with these of all possible arrows, by the bits of a number.
fn graph_of_bits(count: usize, bits: usize) -> Pairs {
    let pairs = (0..count).flat_map(|from| (0..count).map(move |to| (from, to)));
    let arrows = pairs.filter(|(from, to)| from != to).enumerate();
    let drawn = arrows.filter(|(bit, _)| bits >> bit & 1 == 1);
    drawn.map(|(_, arrow)| arrow).collect()
}

#[test]
fn rings_of_all_graphs_of_four_groups_are_as_defined() {
    let ringed = (0..1 << 12).filter(|&bits| compare_ring(4, &graph_of_bits(4, bits)));
    // 543 of the 4,096 graphs have no closed walk
    assert_eq!(ringed.count(), 4_096 - 543);
}

/// A random graph, on average with so many quarters of an arrow from each group.
fn random_graph(rng: &mut Rng, count: usize, quarters: usize) -> Pairs {
    let mut arrows = Pairs::new();
    for from in 0..count {
        for to in (0..count).filter(|&to| to != from) {
            if rng.chance(quarters, 4 * (count - 1)) {
                arrows.insert((from, to));
            }
        }
    }
    arrows
}

#[test]
fn rings_of_random_graphs_are_as_defined() {
    let (mut rings, mut large) = (0, 0);
    for index in 0..6_000 {
        let rng = &mut Rng::new(37, index);
        let count = *rng.pick(&[5, 6, 7, 8, 9, 20, 40]);
        let quarters = rng.within(3..=8);
        let ringed = compare_ring(count, &random_graph(rng, count, quarters));
        rings += usize::from(ringed);
        large += usize::from(ringed && count > WALKED);
    }
    println!("arrows: 6000 graphs, {rings} of them with rings, {large} of these large");
    assert!(rings >= 3_000 && large >= 1_000);
}
