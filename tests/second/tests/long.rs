//! Records beyond the exhaustive search: loosened plain runs, and a bounded search.

mod common;

use common::{accepted, takes_high};
use second::bounded::{find_bounded, judge_bounded, Found};
use second::generator::{long_loosened_run, many_ranks, middle_run, neighbours, small_run, Maker};
use second::judge::{find_plain_run, judge_order};
use second::order::Verdict;

/// Places a bounded search may visit.
const LIMIT: usize = 20_000;

#[test]
fn loosened_plain_runs_have_an_order() {
    let (mut longest, mut high) = (0, 0);
    for index in 0..250 {
        let accepted = accepted(long_loosened_run, 21, index);
        let Verdict::Order(order) = &accepted.verdict else {
            panic!("seed 21, index {index}: a ring for the trace of a plain run");
        };
        judge_order(&accepted, order)
            .unwrap_or_else(|fault| panic!("seed 21, index {index}: {fault}"));
        longest = longest.max(accepted.items.len());
        high += usize::from(takes_high(&accepted.items));
    }
    println!("loosened: 250 orders, the longest of {longest} items, {high} from 256 on");
    assert!(longest >= 1_000 && high >= 10);
}

#[test]
fn the_two_searches_agree_on_small_runs() {
    for index in 0..8_000 {
        let made: Maker = [small_run, neighbours::small_run][index as usize % 2];
        let accepted = accepted(made, 22, index);
        let (program, start) = (&accepted.program, &accepted.start);
        let exhaustive = find_plain_run(program, start, &accepted.run);
        let bounded = find_bounded(program, start, &accepted.run, LIMIT);
        match (exhaustive, bounded) {
            (Some(one), Found::Run(other)) => assert_eq!(one, other, "seed 22, index {index}"),
            (None, Found::Nothing) => {}
            other => panic!("seed 22, index {index}: {other:?}"),
        }
    }
}

#[test]
fn arrows_and_the_bounded_search_agree_on_middle_runs() {
    let (mut orders, mut rings, mut unknown, mut high) = (0, 0, 0, 0);
    for index in 0..5_000 {
        let accepted = accepted(middle_run, 23, index);
        let ended = judge_bounded(&accepted, LIMIT)
            .unwrap_or_else(|fault| panic!("seed 23, index {index}: {fault}"));
        high += usize::from(takes_high(&accepted.items));
        match &accepted.verdict {
            _ if !ended => unknown += 1,
            Verdict::Order(_) => orders += 1,
            Verdict::Ring(_) => rings += 1,
        }
    }
    println!("middle: {orders} orders, {rings} rings, {unknown} given up, {high} from 256 on");
    assert!(orders >= 1_000 && rings >= 1_000 && unknown < 100 && high >= 300);
}

/// Judges runs of any length, as far as the bounded search comes to an end.
fn judge_runs(made: Maker, seed: u64) {
    let (mut orders, mut rings, mut unknown) = (0, 0, 0);
    for index in 0..1_500 {
        let accepted = accepted(made, seed, index);
        if let Verdict::Order(order) = &accepted.verdict {
            judge_order(&accepted, order)
                .unwrap_or_else(|fault| panic!("seed {seed}, index {index}: {fault}"));
        }
        let ended = judge_bounded(&accepted, 500)
            .unwrap_or_else(|fault| panic!("seed {seed}, index {index}: {fault}"));
        match &accepted.verdict {
            _ if !ended => unknown += 1,
            Verdict::Order(_) => orders += 1,
            Verdict::Ring(_) => rings += 1,
        }
    }
    println!("seed {seed}: {orders} orders, {rings} rings, {unknown} given up");
    assert!(orders >= 300 && rings >= 100);
}

#[test]
fn arrows_and_the_bounded_search_agree_on_runs_of_many_ranks() {
    judge_runs(many_ranks::any_run, 24);
}

#[test]
fn arrows_and_the_bounded_search_agree_on_runs_with_overtaking() {
    judge_runs(neighbours::any_run, 25);
}
