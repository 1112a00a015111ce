//! Arrows against the exhaustive judge on many small accepted records.

mod common;

use common::{accept_run, takes_high};
use second::check::{accept_items, Accepted};
use second::generator::edition::Edition;
use second::generator::executions::{execution, pace};
use second::generator::programs::{every_rank, program_of, SMALL};
use second::generator::rng::Rng;
use second::generator::widen::now_and_then;
use second::generator::{later_run, SMALL_RUNS};
use second::judge::judge;
use second::judged::Verdicts;
use second::machine::Start;

/// How many small accepted records are judged from document 01's start.
const RECORDS: u64 = 36_000;
/// How many are judged from other starts.
const OTHER_STARTS: u64 = 4_000;

/// Judges an accepted run and counts its verdict.
fn judge_and_count(verdicts: &mut Verdicts, accepted: &Accepted, index: u64) {
    judge(accepted).unwrap_or_else(|fault| panic!("index {index}: {fault}"));
    verdicts.count(&accepted.verdict);
}

#[test]
fn arrows_and_the_exhaustive_judge_agree() {
    let (mut counts, mut many, mut high) = (Verdicts::default(), Verdicts::default(), 0);
    for index in 0..RECORDS {
        let rng = &mut Rng::new(1, index);
        let run = later_run(rng, SMALL_RUNS, Edition::Today);
        let accepted =
            accept_run(&run).unwrap_or_else(|refusal| panic!("index {index}: {refusal:?}"));
        let (program, start, items) = &run;
        assert_eq!((&accepted.program, &accepted.items), (program, items));
        assert_eq!(accepted.start, *start);
        judge_and_count(&mut counts, &accepted, index);
        high += usize::from(takes_high(items));
        if program.ranks > 8 {
            many.count(&accepted.verdict);
        }
    }
    println!("judged: {counts:?}, {high} of them with transitions from 256 on");
    println!("of more than eight ranks: {many:?}");
    assert!(counts.own_orders >= 10_000, "too few orders");
    assert!(
        counts.other_orders >= 2_000,
        "too few orders other than the record's own"
    );
    assert!(counts.rings >= 6_000, "too few rings");
    assert!(high >= 2_000, "too few with transitions from 256 on");
    let of_many = [many.own_orders, many.other_orders, many.rings];
    assert!(of_many.iter().all(|&count| count >= 250), "{many:?}");
}

/// A start with random cells, registers and states.
fn random_start(rng: &mut Rng, program: &second::program::Program) -> Start {
    let mut start = Start::zero(program);
    for rank in &mut start.0 {
        rank.state = rng.below(program.states);
        rank.cells.iter_mut().for_each(|cell| *cell = rng.value());
        rank.registers
            .iter_mut()
            .for_each(|register| *register = rng.value() % 4);
    }
    start
}

#[test]
fn they_agree_from_other_starts_too() {
    let mut counts = Verdicts::default();
    for index in 0..OTHER_STARTS {
        let rng = &mut Rng::new(2, index);
        let ranks = *rng.pick(&[1, 2, 3, 3, 9, 15, 16]);
        let busy = &every_rank(ranks)[ranks.saturating_sub(3)..];
        let program = program_of(rng, SMALL, ranks, busy, Edition::Today);
        let start = random_start(rng, &program);
        let mut pace = pace(rng, 16 + ranks, 7);
        pace.naming = rng.below(5);
        let items = execution(rng, &program, busy, &start, pace);
        let (program, start, items) = now_and_then(rng, (program, start, items));
        let accepted = accept_items(program, start, items)
            .unwrap_or_else(|refusal| panic!("index {index}: {refusal:?}"));
        judge_and_count(&mut counts, &accepted, index);
    }
    println!("judged from other starts: {counts:?}");
    assert!(counts.own_orders + counts.other_orders >= 1_000 && counts.rings >= 1_000);
}
