//! What several tests share; no test uses all of it.

#![allow(dead_code)]

pub mod graph;

use second::check::{accept, accept_items, fill_bytes, Accepted, Answer};
use second::corpus::{Case, CheckCase, SlipCase};
use second::corpus_reader::{corpus_files, read_file};
use second::extras::{compare_all_ranks, compare_extras, compare_slip_reader, Extras, Tally, Told};
use second::generator::edition::Edition;
use second::generator::rng::Rng;
use second::generator::slips::slip_input;
use second::generator::starts::{start_read_case, start_write_case};
use second::generator::widen::{now_and_then, Run};
use second::generator::{input, small_input, Input, Maker};
use second::groups::{arrows, gather, Pairs};
use second::harness::{between_guards, compare, compare_case, Subject};
use second::judged::judge_observed;
use second::limits::{Outcome, Refusal};
use second::machine::{Machine, Run as Replayed, Start, Step};
use second::order::decide;
use second::program::Program;
use second::record::{fields, read_record, record_bytes, Item};
use second::start::{start_bytes, start_of};
use second::start_extras::{compare_start_reader, compare_start_writer};
use std::collections::{BTreeMap, BTreeSet};
use std::path::Path;
use std::sync::OnceLock;

/// How often each thing was seen.
pub type Times = BTreeMap<String, usize>;

/// How a wrong program does one item.
pub type StepMistake<'a> = &'a dyn Fn(&Program, &mut Machine, &Item) -> Result<Step, u8>;

/// Generated inputs that a wrong subject has to be caught within.
const INPUTS: u64 = 3_000;
/// Small records that a wrong subject has to be misjudged within.
const RECORDS: u64 = 2_500;
/// The seed of those inputs and records.
const SEED: u64 = 11;

/// The first generated input that catches the subject.
pub fn first_caught(subject: Subject) -> Option<u64> {
    let observe = between_guards(subject);
    (0..INPUTS).find(|&index| compare(&observe, &input(SEED, index)).is_err())
}

/// The first small record on which the exhaustive judge finds the subject wrong, and its words.
pub fn first_misjudged(subject: Subject) -> Option<(u64, String)> {
    let observe = between_guards(subject);
    let misjudged = |index| {
        let input = small_input(SEED, index);
        let fault = judge_observed(&input, &observe(&input)).err()?;
        Some((index, fault))
    };
    (0..RECORDS).find_map(misjudged)
}

/// A replay whose items are done in another way.
pub fn replay_by(
    step: StepMistake,
    program: &Program,
    start: &Start,
    items: &[Item],
) -> Outcome<Replayed> {
    let mut machine = Machine::new(program, start);
    let mut steps = Vec::new();
    for (place, item) in items.iter().enumerate() {
        let done = step(program, &mut machine, item);
        steps.push(done.map_err(|number| Refusal { number, place })?);
    }
    let place = items.len();
    match (machine.open_row, machine.queues_empty()) {
        (Some(_), _) => Err(Refusal { number: 12, place }),
        (None, false) => Err(Refusal { number: 13, place }),
        (None, true) => Ok(Replayed {
            steps,
            last: machine,
        }),
    }
}

/// The whole check with items done in another way.
pub fn check_by(
    step: StepMistake,
    [program, start, record]: [&[u8]; 3],
    [order, cells]: [&mut [u8]; 2],
) -> Answer {
    let accepted = Program::read(program).and_then(|program| {
        let start = start_of(&program, start)?;
        let items = read_record(record, &program)?;
        let run = replay_by(step, &program, &start, &items)?;
        let grouping = gather(&run.steps);
        let arrows = arrows(&run.steps, &grouping.group_of);
        let verdict = decide(grouping.groups.len(), &arrows);
        Ok(Accepted {
            program,
            start,
            items,
            run,
            grouping,
            verdict,
        })
    });
    fill_bytes(accepted, order, cells)
}

/// Accepts as before #102, when sums came round.
pub fn accept_dated(program: &[u8], start: &[u8], record: &[u8]) -> Outcome<Accepted> {
    let program = Program::read(program)?;
    let start = start_of(&program, start)?;
    let items = read_record(record, &program)?;
    accept_items(program.dated(), start, items)
}

/// The program and start of an input, if they can be read.
pub fn read_program_and_start(input: &Input) -> Option<(Program, Start)> {
    let program = Program::read(&input.program).ok()?;
    let start = start_of(&program, &input.start).ok()?;
    Some((program, start))
}

/// All cases of the corpus, read once.
pub fn cases() -> &'static [Case] {
    static CASES: OnceLock<Vec<Case>> = OnceLock::new();
    CASES.get_or_init(|| {
        let directory = Path::new(env!("CARGO_MANIFEST_DIR")).join("../vectors");
        let files = corpus_files(&directory).expect("the corpus is there");
        let read = |file| read_file(file).expect("the corpus is well formed");
        files.iter().flat_map(|file| read(file)).collect()
    })
}

/// The name of the last case of the corpus that catches a subject so.
fn last_case_that(catches: impl Fn(&Case) -> bool) -> Option<&'static str> {
    let caught = cases().iter().rfind(|case| catches(case));
    caught.map(Case::name)
}

/// The name of the last case of the corpus that catches the subject.
pub fn case_that_catches(subject: Subject) -> Option<&'static str> {
    last_case_that(|case| match case {
        Case::Check(case) => compare_case(&between_guards(subject), case).is_err(),
        Case::Slip(_) | Case::StartWrite(_) | Case::StartRead(_) => false,
    })
}

/// Fails unless both the generated inputs and the corpus catch the subject.
pub fn assert_caught(subject: Subject) {
    let by_input = first_caught(subject).expect("a generated input must catch the subject");
    let case = case_that_catches(subject).expect("a case of the corpus must catch the subject");
    println!("caught by input {by_input} and by the corpus's case {case}");
}

/// Fails unless generated inputs, the corpus and the exhaustive judge all catch the subject; gives
/// the judge's words.
pub fn assert_caught_and_misjudged(subject: Subject) -> String {
    assert_caught(subject);
    let (index, fault) = first_misjudged(subject).expect("the judge must find the subject wrong");
    println!("misjudged on small record {index}: {fault}");
    fault
}

/// The first generated input, or slip or start of the same number, that catches the functions.
fn first_caught_extras(subject: &Extras) -> Option<(u64, String)> {
    let catches = |index| {
        let slip = slip_input(SEED, index);
        let case = CheckCase::of_input(input(SEED, index));
        let read = SlipCase::answered(String::new(), slip.ranks, slip.slip, slip.counts_entries);
        let tally = &mut Tally::default();
        let fault = compare_extras(subject, &case, tally)
            .and_then(|()| compare_slip_reader(subject, &read, tally))
            .and_then(|()| compare_all_ranks(subject, &read.slip, tally))
            .and_then(|()| compare_start_writer(subject, &start_write_case(SEED, index), tally))
            .and_then(|()| compare_start_reader(subject, &start_read_case(SEED, index), tally))
            .err()?;
        Some((index, fault))
    };
    (0..INPUTS).find_map(catches)
}

/// Compares the functions beside the check with a case of the corpus.
pub fn compare_beside(subject: &Extras, case: &Case, tally: &mut Tally) -> Result<(), String> {
    match case {
        Case::Check(case) => compare_extras(subject, case, tally),
        Case::Slip(case) => compare_slip_reader(subject, case, tally),
        Case::StartWrite(case) => compare_start_writer(subject, case, tally),
        Case::StartRead(case) => compare_start_reader(subject, case, tally),
    }
}

/// The name of the last case of the corpus that catches the functions.
fn last_case_that_catches(subject: &Extras) -> Option<&'static str> {
    last_case_that(|case| compare_beside(subject, case, &mut Tally::default()).is_err())
}

/// Fails unless both the generated inputs and the corpus catch the functions, the inputs by a
/// difference of the one named.
pub fn assert_extras_caught(function: &str, subject: &Extras) {
    let (index, fault) = first_caught_extras(subject).expect("a generated input must catch it");
    let begin = format!("the {function} differs\n");
    assert!(fault.starts_with(&begin), "{fault}");
    let case = last_case_that_catches(subject).expect("a case of the corpus must catch it");
    println!("caught by input {index} and by the corpus's case {case}");
}

/// Fails if a generated input or the corpus catches the functions.
pub fn assert_extras_right(subject: &Extras) {
    assert_eq!(first_caught_extras(subject), None);
    assert_eq!(last_case_that_catches(subject), None);
}

/// A number with its value.
pub fn told(number: u8, value: usize) -> Told {
    Told { number, value }
}

/// A refusal as an answer.
pub fn refused(number: u8, place: usize) -> Answer {
    Answer::Refused(Refusal { number, place })
}

/// Whether a record ends before all fields that the map at this place names.
pub fn is_cut(record: &[u8], at: usize) -> bool {
    at + 2 + fields(record[at]) > record.len()
}

/// The accepted run of this number under this seed, made so and now and then widened.
pub fn accepted(made: Maker, seed: u64, index: u64) -> Accepted {
    let rng = &mut Rng::new(seed, index);
    let run = made(rng, Edition::Today);
    accept_run(&now_and_then(rng, run)).expect("an execution is accepted")
}

/// Accepts a run as it is written in bytes.
pub fn accept_run((program, start, items): &Run) -> Outcome<Accepted> {
    let bytes = program.to_bytes();
    accept(&bytes, &start_bytes(start), &record_bytes(items))
}

/// The arrows of an accepted run.
pub fn drawn_arrows(accepted: &Accepted) -> Pairs {
    arrows(&accepted.run.steps, &accepted.grouping.group_of)
}

/// Whether an item takes a transition from 256 on.
pub fn takes_high(items: &[Item]) -> bool {
    let is_high = |item: &Item| item.act.transition() >= Some(256);
    items.iter().any(is_high)
}

/// Counts what was seen.
pub fn count(times: &mut Times, seen: BTreeSet<String>) {
    for what in seen {
        *times.entry(what).or_default() += 1;
    }
}

/// Fails unless so many things were seen, none of them rarely.
pub fn assert_seen(times: &Times, things: usize, least: usize) {
    println!("{times:#?}");
    let rare: Vec<_> = times.iter().filter(|(_, &times)| times < least).collect();
    assert!(rare.is_empty(), "rare {rare:?}");
    assert_eq!(times.len(), things);
}
