//! The runs a to m of document 01, with their whole answers.

use second::check::{answer, check, check_bytes, Answer};
use second::corpus::{Case, CheckCase, Expected};
use second::corpus_reader::parse;
use second::extras::{compare_extras, Extras, Tally};
use second::harness::{between_guards, compare_case};
use second::limits::Refusal;
use second::listing::write_listing;

/// The hand-written file of runs.
const RUNS: &str = include_str!("../../vectors/runs.txt");

/// The answers of runs a to l as document 01 states them, that of l by #102.
const ANSWERS: [(&str, &str); 13] = [
    ("run-a", "order"),
    ("run-b", "ring 3 4 5"),
    ("run-c", "order 0 1 2 3 4 5"),
    ("run-d", "order 0"),
    ("run-e", "ring 0 1"),
    ("run-f", "refused 13 1"),
    ("run-g", "refused 10 0"),
    ("run-h", "refused 10 1"),
    ("run-i", "refused 9 0"),
    ("run-j", "refused 12 0"),
    ("run-k-63", "order 0"),
    ("run-k-64", "refused 8 0"),
    ("run-l", "refused 18 0"),
];

/// What document 01 prints for run b.
const RUN_B: &str = "ring 3\n\
    group 3 write 2 3\n\
    group 4 bar 0 6\n\
    group 5 load 1 8\n\
    cell 1 0 1\n\
    cell 1 1 2\n\
    cell 2 0 2\n\
    cell 2 1 1\n";

/// The check cases of the file.
fn runs() -> Vec<CheckCase> {
    let check = |case| match case {
        Case::Check(case) => case,
        other => panic!("{} is no case of the check", other.name()),
    };
    parse(RUNS)
        .expect("runs.txt is well formed")
        .into_iter()
        .map(check)
        .collect()
}

/// An answer in words.
fn words(expected: &Expected) -> String {
    let list = |groups: &[u16]| {
        groups
            .iter()
            .map(|group| format!(" {group}"))
            .collect::<String>()
    };
    match expected {
        Expected::Order(groups) => format!("order{}", list(groups)),
        Expected::Ring(groups) => format!("ring{}", list(groups)),
        Expected::Refused(refusal) => format!("refused {} {}", refusal.number, refusal.place),
    }
}

#[test]
fn runs_a_to_l_have_their_whole_answers() {
    let runs = runs();
    assert_eq!(runs.len(), ANSWERS.len());
    for (case, (name, answer)) in runs.iter().zip(ANSWERS) {
        assert_eq!(
            (case.name.as_str(), words(&case.answer).as_str()),
            (name, answer)
        );
        if let Err(disagreement) = compare_case(&between_guards(&check_bytes), case) {
            panic!("{name}: {disagreement}");
        }
        compare_extras(&Extras::second(), case, &mut Tally::default())
            .unwrap_or_else(|fault| panic!("{name}: {fault}"));
    }
}

#[test]
fn run_b_prints_its_lines() {
    let case = &runs()[1];
    let mut memory = [0; 200];
    let listed = write_listing(&case.program, &case.start, &case.record, &mut memory);
    assert_eq!(&memory[..listed.written], RUN_B.as_bytes());
}

/// N 1, one transition: register 0 takes constant 1.
const ASSIGN: [u8; 14] = [1, 1, 1, 1, 1, 1, 3, 3, 0, 0, 0, 0, 0, 1];

/// A record of so many assigns, its count written as the two bytes.
fn assigns(count: [u8; 2], items: usize) -> Vec<u8> {
    let mut record = count.to_vec();
    record.extend([3, 3, 1, 0].repeat(items));
    record
}

#[test]
fn run_m_1024_items_pass_the_count() {
    let filled = answer(&ASSIGN, &[], &assigns([4, 0], 1024), 1024, 1);
    assert_eq!(filled.answer, Answer::Order(1024));
    assert_eq!(filled.groups, (0..1024).collect::<Vec<u16>>());
    assert_eq!(filled.cells, [0]);
}

#[test]
fn run_m_1025_items_are_5_at_byte_0() {
    let (mut order, mut cells) = ([7; 1025], [8; 3]);
    let answer = check(&ASSIGN, &[], &assigns([4, 1], 1025), &mut order, &mut cells);
    assert_eq!(
        answer,
        Answer::Refused(Refusal {
            number: 5,
            place: 0
        })
    );
    assert_eq!((order, cells), ([7; 1025], [8; 3]));
}
