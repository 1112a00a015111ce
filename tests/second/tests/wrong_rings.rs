//! The harness must catch a subject that gives another ring than #111's, by generated inputs and by
//! the corpus.

mod common;

use common::graph::{from_its_lowest, Graph};
use common::{assert_caught, case_that_catches, first_caught, refused};
use second::check::{accept, check_bytes, fill_bytes, Accepted, Answer};
use second::families::former_ring::{former_groups, unplaced};
use second::order::{closed_walks, Verdict};
use std::collections::BTreeSet;

/// How a wrong program makes a ring of the right one.
type RingMistake<'a> = &'a dyn Fn(&Accepted, &[usize]) -> Vec<usize>;

/// The whole check with the ring changed if there is one.
fn check_with(
    mistake: RingMistake,
    [program, start, record]: [&[u8]; 3],
    [order, cells]: [&mut [u8]; 2],
) -> Answer {
    let accepted = accept(program, start, record).map(|mut accepted| {
        if let Verdict::Ring(ring) = &accepted.verdict {
            accepted.verdict = Verdict::Ring(mistake(&accepted, ring));
        }
        accepted
    });
    fill_bytes(accepted, order, cells)
}

/// Fails unless this ring is caught.
fn assert_ring_caught(mistake: RingMistake) {
    assert_caught(&|program, start, record, order, cells| {
        check_with(mistake, [program, start, record], [order, cells])
    });
}

/// The groups, rising, through which the shortest closed walk has so many groups.
fn groups_with(graph: &Graph, length: usize) -> Vec<usize> {
    let rounds = graph.rounds();
    let has = |group: &usize| rounds[*group] == Some(length);
    (0..rounds.len()).filter(has).collect()
}

/// The lowest of the groups that may come next.
fn lowest(possible: &[usize]) -> Option<&usize> {
    possible.first()
}

/// The highest of the groups that may come next.
fn highest(possible: &[usize]) -> Option<&usize> {
    possible.last()
}

#[test]
fn the_same_ring_put_together_so_is_not_caught() {
    let right: RingMistake = &|accepted, ring| {
        let graph = Graph::of(accepted);
        graph.walk(groups_with(&graph, ring.len())[0], ring.len(), lowest)
    };
    let caught = first_caught(&|program, start, record, order, cells| {
        check_with(right, [program, start, record], [order, cells])
    });
    assert_eq!(caught, None);
}

#[test]
fn the_ring_of_document_01() {
    assert_ring_caught(&|accepted, _| former_groups(accepted));
}

#[test]
fn the_ring_of_document_01_if_it_is_as_short() {
    assert_ring_caught(&|accepted, ring| {
        let former = former_groups(accepted);
        if former.len() == ring.len() {
            former
        } else {
            ring.to_vec()
        }
    });
}

#[test]
fn a_walk_with_its_tail() {
    assert_ring_caught(&|accepted, ring| {
        let graph = Graph::of(accepted);
        let left = unplaced(&graph.sources);
        let mut walk = vec![left[0]];
        while !ring.contains(&walk[0]) {
            let mut back = graph.sources[walk[0]].iter().copied();
            match back.find(|source| left.contains(source) && !walk.contains(source)) {
                Some(source) => walk.insert(0, source),
                None => return ring.to_vec(),
            }
        }
        let tail = walk.split_off(1);
        [ring, &tail].concat()
    });
}

/// The first closed walk from a group that a search finds which goes on as far as it can and takes
/// the lowest group first; it gives up after some steps.
fn depth_first(graph: &Graph, walk: &mut Vec<usize>, patience: &mut usize) -> bool {
    let (first, last) = (walk[0], walk[walk.len() - 1]);
    *patience = patience.saturating_sub(1);
    for &next in &graph.targets[last] {
        if next == first {
            return true;
        }
        if *patience > 0 && next > first && !walk.contains(&next) {
            walk.push(next);
            if depth_first(graph, walk, patience) {
                return true;
            }
            walk.pop();
        }
    }
    false
}

#[test]
fn a_longer_ring_through_the_same_lowest_group() {
    assert_ring_caught(&|accepted, ring| {
        let (graph, mut walk) = (Graph::of(accepted), vec![ring[0]]);
        if depth_first(&graph, &mut walk, &mut 1_000) {
            walk
        } else {
            ring.to_vec()
        }
    });
}

#[test]
fn the_shortest_ring_through_the_lowest_group_on_any() {
    assert_ring_caught(&|accepted, ring| {
        let graph = Graph::of(accepted);
        let rounds = graph.rounds();
        let lowest_walked = (0..rounds.len()).find_map(|group| Some((group, rounds[group]?)));
        let (first, length) = lowest_walked.unwrap_or((ring[0], ring.len()));
        graph.walk(first, length, lowest)
    });
}

#[test]
fn the_highest_next_group() {
    assert_ring_caught(&|accepted, ring| Graph::of(accepted).walk(ring[0], ring.len(), highest));
}

#[test]
fn a_later_ring_of_the_same_length() {
    assert_ring_caught(&|accepted, ring| {
        let graph = Graph::of(accepted);
        let through = groups_with(&graph, ring.len());
        from_its_lowest(graph.walk(through[through.len() - 1], ring.len(), lowest))
    });
}

#[test]
fn places_compared_from_the_last() {
    assert_ring_caught(&|accepted, ring| {
        let mut walk = Graph::of(accepted)
            .reversed()
            .walk(ring[0], ring.len(), lowest);
        walk[1..].reverse();
        walk
    });
}

/// The shortest rings of a run, if they are short enough to list all of them, and else the right
/// one.
fn shortest_rings(accepted: &Accepted, ring: &[usize]) -> Vec<Vec<usize>> {
    let graph = Graph::of(accepted);
    if ring.len() > 6 || graph.sources.len() > 100 {
        return vec![ring.to_vec()];
    }
    let walks = closed_walks(&graph.targets, ring.len());
    walks.into_iter().map(from_its_lowest).collect()
}

#[test]
fn numbers_compared_as_sorted() {
    // two rings that this tells apart stand beside each other too seldom in generated inputs
    let sorted = |ring: &Vec<usize>| ring.iter().copied().collect::<BTreeSet<usize>>();
    let mistake: RingMistake = &|accepted, ring| {
        let rings = shortest_rings(accepted, ring).into_iter();
        rings.min_by_key(sorted).expect("the ring")
    };
    let case = case_that_catches(&|program, start, record, order, cells| {
        check_with(mistake, [program, start, record], [order, cells])
    });
    assert_eq!(case, Some("shortest-fan-listed-and-not-sorted"));
}

#[test]
fn numbers_compared_by_their_sum() {
    assert_ring_caught(&|accepted, ring| {
        let rings = shortest_rings(accepted, ring);
        let by_sum = |ring: &Vec<usize>| (ring.iter().sum::<usize>(), ring.clone());
        rings.into_iter().min_by_key(by_sum).expect("the ring")
    });
}

#[test]
fn listed_from_another_than_its_lowest() {
    assert_ring_caught(&|_, ring| {
        let mut listed = ring.to_vec();
        listed.rotate_right(1);
        listed
    });
    assert_ring_caught(&|_, ring| {
        let mut listed = ring.to_vec();
        let highest = (0..ring.len()).max_by_key(|&place| ring[place]);
        listed.rotate_left(highest.unwrap_or(0));
        listed
    });
}

#[test]
fn against_the_arrows() {
    assert_ring_caught(&|_, ring| {
        let mut listed = ring.to_vec();
        listed[1..].reverse();
        listed
    });
}

#[test]
fn a_search_for_short_rings_only() {
    for most in [2, 3, 4] {
        assert_ring_caught(&|accepted, ring| {
            if ring.len() <= most {
                ring.to_vec()
            } else {
                former_groups(accepted)
            }
        });
    }
}

#[test]
fn too_short_a_list_told_by_the_rings_length() {
    assert_caught(&|program, start, record, order, cells| {
        let accepted = match accept(program, start, record) {
            Ok(accepted) => accepted,
            Err(refusal) => return Answer::Refused(refusal),
        };
        let listed = accepted.verdict.groups().len();
        if order.len() / 2 < listed {
            return refused(14, listed);
        }
        let mut room = vec![0; 2 * accepted.grouping.groups.len()];
        let answer = fill_bytes(Ok(accepted), &mut room, cells);
        if !matches!(answer, Answer::Refused(_)) {
            order[..2 * listed].copy_from_slice(&room[..2 * listed]);
        }
        answer
    });
}

#[test]
fn the_place_of_14_by_the_rings_length() {
    assert_caught(&|program, start, record, order, cells| {
        let answer = check_bytes(program, start, record, order, cells);
        match (answer, accept(program, start, record)) {
            (Answer::Refused(refusal), Ok(accepted)) if refusal.number == 14 => {
                refused(14, accepted.verdict.groups().len())
            }
            _ => answer,
        }
    });
}
