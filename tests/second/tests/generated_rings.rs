//! The generator on #111: rings of every kind that a wrong rule would miss come often enough.

mod common;

use common::graph::Graph;
use common::{assert_seen, count, Times};
use second::check::{accept, check_bytes, Accepted, Answer};
use second::families::former_ring::{former_groups, unplaced};
use second::generator::{input, small_input, Input};
use second::harness::{between_guards, compare};
use second::order::{steps_to, Verdict, FEW_GROUPS};
use second::program::Kind;
use std::collections::BTreeSet;

/// The first place in which another ring of the ring's length, from its lowest group, differs.
fn first_choice(graph: &Graph, ring: &[usize]) -> Option<usize> {
    let steps = steps_to(ring[0], &graph.sources);
    (1..ring.len()).find(|&place| {
        let left = Some(ring.len() - place);
        let on = graph.targets[ring[place - 1]].iter();
        on.filter(|&&next| steps[next] == left).count() > 1
    })
}

/// What the lengths and lowest groups of other rings show beside the ring.
fn seen_of_rounds(graph: &Graph, ring: &[usize]) -> Vec<&'static str> {
    let rounds = graph.rounds();
    let as_short = |group: &usize| rounds[*group] == Some(ring.len()) && !ring.contains(group);
    let lengths: BTreeSet<usize> = rounds.iter().flatten().copied().collect();
    let lower = rounds[..ring[0]].iter().flatten().count();
    let lowest_unplaced = unplaced(&graph.sources)[0];
    let facts = [
        (
            (0..rounds.len()).any(|group| as_short(&group)),
            "a group beside it in one as short",
        ),
        (lengths.len() > 1, "groups in longer ones only"),
        (lengths.len() > 3, "rings of four lengths or more"),
        (lower > 0, "a lower group on closed walks"),
        (lower > 3, "four lower groups on closed walks"),
        (
            rounds[lowest_unplaced].is_none(),
            "the lowest unplaced group on no closed walk",
        ),
    ];
    let held = facts.into_iter().filter(|(holds, _)| *holds);
    held.map(|(_, what)| what).collect()
}

/// What a ring shows by itself.
fn seen_of_groups(accepted: &Accepted, ring: &[usize]) -> Vec<String> {
    let of = |group: &usize| &accepted.grouping.groups[*group];
    let kinds: BTreeSet<Kind> = ring.iter().map(|group| of(group).kind).collect();
    let ranks: BTreeSet<usize> = ring.iter().map(|group| of(group).rank).collect();
    let few = if accepted.grouping.groups.len() > FEW_GROUPS {
        "many"
    } else {
        "few"
    };
    let mut seen: Vec<String> = kinds
        .iter()
        .map(|kind| format!("a {}", kind.word()))
        .collect();
    seen.push(format!("{} groups of {few}", ring.len().min(6)));
    seen.push(format!("{} ranks", ranks.len().min(3)));
    if ranks.len() > 3 && few == "many" {
        seen.push("4 ranks or more of many".into());
    }
    if !ring.is_sorted() {
        seen.push("numbers that do not rise".into());
    }
    if ring[0] >= 20 {
        seen.push("a lowest group of 20 or more".into());
    }
    seen
}

/// What document 01's ring is beside the ring.
fn seen_of_former(accepted: &Accepted, ring: &[usize]) -> &'static str {
    let former = former_groups(accepted);
    match former.len() {
        _ if former == ring => "document 01's ring",
        length if length == ring.len() => "another ring than document 01's, as long",
        _ if former[0] == ring[0] => "a shorter ring than document 01's, from its lowest group",
        _ => "a shorter ring than document 01's",
    }
}

/// What an accepted run with a ring shows; nothing if it has an order.
fn seen(accepted: &Accepted) -> BTreeSet<String> {
    let Verdict::Ring(ring) = &accepted.verdict else {
        return BTreeSet::new();
    };
    let graph = Graph::of(accepted);
    let mut seen: BTreeSet<String> = seen_of_groups(accepted, ring).into_iter().collect();
    seen.insert(seen_of_former(accepted, ring).into());
    seen.extend(seen_of_rounds(&graph, ring).into_iter().map(Into::into));
    if let Some(place) = first_choice(&graph, ring) {
        seen.insert(format!("a choice at place {}", place.min(3)));
    }
    let on = graph.targets[ring[0]].iter().copied();
    if on.min() < Some(ring[1]) {
        seen.insert("a next group that is not the lowest".into());
    }
    seen
}

/// Counts what accepted inputs show.
fn times(made: fn(u64, u64) -> Input, seed: u64, inputs: u64) -> Times {
    let mut times = Times::new();
    for index in 0..inputs {
        let input = made(seed, index);
        let answer = compare(&between_guards(&check_bytes), &input)
            .unwrap_or_else(|fault| panic!("seed {seed}, index {index}: {fault}"));
        if let Answer::Ring(_) = answer {
            let accepted = accept(&input.program, &input.start, &input.record);
            count(
                &mut times,
                seen(&accepted.expect("a ring is of an accepted run")),
            );
        }
    }
    times
}

#[test]
fn every_kind_of_ring_is_seen() {
    assert_seen(&times(input, 71, 12_000), 37, 12);
}

#[test]
fn every_kind_of_small_ring_is_seen() {
    assert_seen(&times(small_input, 72, 12_000), 30, 12);
}
