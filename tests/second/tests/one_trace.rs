//! #112: what is tried of it comes often enough, the second program holds to it, and what it does
//! not allow makes a difference.

mod common;

use common::{assert_seen, count, Times};
use second::bytes::{fill_words, words_of};
use second::check::{accept, check, check_bytes, Answer};
use second::extras::Extras;
use second::forms::hold::Readers;
use second::generator::{accepted_input, small_input, Input};
use second::harness::{between_guards, Subject};
use second::judge::same_trace;
use second::one_trace::exchange::{Pair, Record, EXCHANGEABLE, KEPT};
use second::one_trace::starts::{beside_start, changed, never_accessed};
use second::one_trace::tried::Tried;
use second::one_trace::{hold, one_page, Held};
use second::program::Kind;
use second::record::{items_of, read_record, record_bytes};
use second::start::start_bytes;
use std::collections::BTreeSet;

/// Records with which what is not allowed must make a difference.
const RECORDS: u64 = 1_500;

/// What was tried in so many records, to all of which the subject holds.
fn tried(subject: Subject, seed: u64, records: u64) -> Tried {
    let mut tried = Tried::default();
    with_readers(subject, |readers| {
        for index in 0..records {
            hold(readers, seed, index, &mut tried)
                .unwrap_or_else(|fault| panic!("seed {seed}, index {index}: {fault}"));
        }
    });
    tried
}

/// Does something with a subject's check and the second program's other functions.
fn with_readers(subject: Subject, mut done: impl FnMut(&Readers)) {
    done(&Readers {
        check: &between_guards(subject),
        extras: &Extras::second(),
    });
}

#[test]
fn the_second_program_holds_to_it_and_every_kind_is_seen() {
    let tried = tried(&check_bytes, 91, 3_000);
    println!("{tried}");
    let mut times = Times::new();
    for (what, ways) in &tried.0 {
        times.extend(
            ways.iter()
                .map(|(way, &seen)| (format!("{way}: {what}"), seen)),
        );
    }
    assert_seen(&times, 132, 10);
}

/// The check on 16-bit lists, lent bytes.
fn check_words(
    program: &[u8],
    start: &[u8],
    record: &[u8],
    order: &mut [u8],
    cells: &mut [u8],
) -> Answer {
    let (mut groups, mut last) = (words_of(order), words_of(cells));
    let answer = check(program, start, record, &mut groups, &mut last);
    fill_words(order, &groups);
    fill_words(cells, &last);
    answer
}

#[test]
fn the_check_on_16_bit_lists_holds_to_it() {
    assert_eq!(tried(&check_words, 92, 500), tried(&check_bytes, 92, 500));
}

#[test]
fn only_the_two_byte_strings_are_exchanged() {
    let mut exchanged = 0;
    with_readers(&check_bytes, |readers| {
        for index in 0..300 {
            let held = Held::of(readers, accepted_input(93, index)).expect("it is accepted");
            let before = Record::of(&held);
            let mut places = items_of(&before.bytes);
            places.push(before.bytes.len());
            for at in before.pairs(Pair::is_exchangeable).into_iter().take(30) {
                let mut after = before.clone();
                after.exchange(at);
                let parts = [0, places[at + 1], places[at], places[at + 2]];
                let ends = [
                    places[at],
                    places[at + 2],
                    places[at + 1],
                    before.bytes.len(),
                ];
                let strings = parts
                    .into_iter()
                    .zip(ends)
                    .map(|(from, to)| &before.bytes[from..to]);
                assert_eq!(after.bytes, strings.collect::<Vec<_>>().concat());
                assert_eq!(after.bytes, record_bytes(&after.items));
                let read = read_record(&after.bytes, &held.accepted.program);
                assert_eq!(read.as_ref(), Ok(&after.items));
                after.exchange(at);
                assert_eq!((&after.bytes, &after.items), (&before.bytes, &before.items));
                exchanged += 1;
            }
        }
    });
    assert!(exchanged >= 1_000, "{exchanged}");
}

#[test]
fn every_pair_of_a_small_record_may_be_exchanged_alone() {
    let mut times = Times::new();
    with_readers(&check_bytes, |readers| {
        for index in 0..RECORDS {
            let held = Held::of(readers, small_input(94, index)).expect("it is accepted");
            let record = Record::of(&held);
            for at in record.pairs(Pair::is_exchangeable) {
                let mut record = record.clone();
                record.exchange(at);
                let other = held.beside_record(record.bytes.clone());
                let other = other.unwrap_or_else(|fault| panic!("index {index}: {fault}"));
                assert!(same_trace(&held.accepted.run, &other.accepted.run));
                let pair = record.pair(at);
                let renumbered = pair == Pair::Commands;
                assert!(renumbered || held.observed.order == other.observed.order);
                count(&mut times, BTreeSet::from([pair.words().into()]));
            }
        }
    });
    assert_seen(&times, EXCHANGEABLE.len(), 500);
}

/// What comes of an input beside an accepted one of the same program.
fn effect(held: &Held, input: Input) -> String {
    if let Err(refusal) = accept(&input.program, &input.start, &input.record) {
        return format!("refused {}", refusal.number);
    }
    let other = Held::of(held.subject, input).expect("it is accepted");
    let trace = if same_trace(&held.accepted.run, &other.accepted.run) {
        "the same trace"
    } else {
        "another trace"
    };
    match one_page(held, &other) {
        Ok(()) => format!("{trace}, one page"),
        Err(fault) => format!("{trace}, {fault}"),
    }
}

#[test]
fn what_may_not_be_exchanged_makes_a_difference() {
    let mut times = Times::new();
    with_readers(&check_bytes, |readers| {
        for index in 0..RECORDS {
            let held = Held::of(readers, small_input(95, index)).expect("it is accepted");
            let record = Record::of(&held);
            for at in record.pairs(|pair| KEPT.contains(&pair)) {
                let mut changed = record.clone();
                changed.exchange(at);
                let input = Input {
                    record: changed.bytes,
                    ..held.input.clone()
                };
                let effect = format!("{}, {}", record.pair(at).words(), effect(&held, input));
                count(&mut times, BTreeSet::from([effect]));
            }
        }
    });
    println!("{times:#?}");
    for (pair, effect) in [
        (Pair::Bar, "refused 7"),
        (Pair::Bar, "refused 12"),
        (Pair::OneRank, "refused 7"),
        (Pair::OneRank, "refused 10"),
        (Pair::OneRank, "refused 11"),
        (
            Pair::OneRank,
            "another trace, another kind of answer or another count",
        ),
        (Pair::OneRank, "another trace, other last cells"),
        (Pair::Conflict, "refused 11"),
        (
            Pair::Conflict,
            "another trace, another kind of answer or another count",
        ),
        (Pair::Conflict, "another trace, other last cells"),
    ] {
        let begin = format!("{}, {effect}", pair.words());
        let seen = times.iter().filter(|(what, _)| what.starts_with(&begin));
        let seen: usize = seen.map(|(_, times)| times).sum();
        assert!(seen >= 5, "{begin}: {seen}");
    }
    // what conflicts has its own order in the trace
    let kept = format!("{}, the same trace", Pair::Conflict.words());
    assert!(!times.keys().any(|what| what.starts_with(&kept)));
}

#[test]
fn another_reading_in_a_cell_that_is_read_makes_a_difference() {
    let mut times = Times::new();
    with_readers(&check_bytes, |readers| {
        for index in 0..RECORDS {
            let held = Held::of(readers, accepted_input(96, index)).expect("it is accepted");
            let accepted = &held.accepted;
            let mut accesses = accepted.items.iter().filter(|item| item.place.is_some());
            let Some(first) = accesses.next() else {
                continue;
            };
            let place = first.place.expect("an access has a place");
            let at = (place.rank - 1) * accepted.program.cells + place.cell;
            assert!(!never_accessed(accepted).contains(&at));
            let start = changed(accepted, &[at], || accepted.start.cells()[at] ^ 1);
            let bytes = start_bytes(&start);
            let input = Input {
                start: bytes.clone(),
                ..held.input.clone()
            };
            let is_read = matches!(first.act.kind(), Kind::Load | Kind::PopA);
            let (read, effect) = (
                if is_read { "read" } else { "written" },
                effect(&held, input),
            );
            let held_to = beside_start(&held, bytes).map_or("a difference", |_| "none");
            count(
                &mut times,
                BTreeSet::from([format!("{read}: {held_to}"), format!("{read}, {effect}")]),
            );
        }
    });
    println!("{times:#?}");
    for effect in [
        "read: a difference",
        "read, refused 11",
        "read, the same trace, other last cells",
    ] {
        let seen = times.iter().filter(|(what, _)| what.starts_with(effect));
        let seen: usize = seen.map(|(_, times)| times).sum();
        assert!(seen >= 20, "{effect}: {seen}");
    }
}
