//! The corpus: whole, current, small, and read with clear faults.

mod common;

use common::{cases, compare_beside};
use second::check::{accept, check_bytes};
use second::corpus::{Case, CheckCase, Expected};
use second::corpus_reader::{corpus_files, parse};
use second::extras::{Extras, Tally};
use second::families;
use second::families::former_ring::former_groups;
use second::harness::{between_guards, compare_case};
use second::limits::{number, Refusal};
use std::collections::BTreeSet;
use std::fs;
use std::path::PathBuf;

/// The seed the corpus is made with.
const SEED: u64 = 1;

/// The corpus's directory.
fn directory() -> PathBuf {
    PathBuf::from(env!("CARGO_MANIFEST_DIR")).join("../vectors")
}

#[test]
fn the_second_program_agrees_with_every_case() {
    let (second, mut tally) = (Extras::second(), Tally::default());
    for case in cases() {
        if let Case::Check(case) = case {
            if let Err(disagreement) = compare_case(&between_guards(&check_bytes), case) {
                panic!("{}: {disagreement}", case.name);
            }
        }
        compare_beside(&second, case, &mut tally)
            .unwrap_or_else(|fault| panic!("{}: {fault}", case.name()));
    }
    println!("{tally}");
}

#[test]
fn the_made_files_are_current() {
    for file in families::files(SEED).expect("the corpus can be made") {
        let there = fs::read_to_string(directory().join(file.name)).expect("the file is there");
        assert!(
            there == file.text,
            "{} is not what write-corpus makes",
            file.name
        );
    }
}

#[test]
fn the_longest_program_start_and_record_are_as_long_as_the_form_allows() {
    let lengths = |name: &str| {
        let named = cases().iter().find(|case| case.name() == name);
        match named {
            Some(Case::Check(case)) => [&case.program, &case.start, &case.record].map(Vec::len),
            other => panic!("{name}: {other:?}"),
        }
    };
    // A header of 8 bytes, and 400 transitions of 4 bytes and four expressions of 15 tokens, seven
    // of one byte and eight of three.
    let longest = 8 + 400 * (4 + 4 * (7 + 8 * 3));
    assert_eq!(lengths("transitions-400-longest-program")[0], longest);
    // For each of 16 ranks a map and 64 values.
    assert_eq!(lengths("starts-longest")[1], 16 * (8 + 64 * 2));
    // The item count, and 1,024 items of map, kind, rank, transition, place, value and high byte.
    let longest = 2 + 1024 * (1 + 1 + 1 + 1 + 3 + 2 + 1);
    assert_eq!(lengths("transitions-400-longest-record")[2], longest);
}

#[test]
fn the_corpus_is_small_and_its_names_differ() {
    let files = corpus_files(&directory()).expect("the corpus is there");
    let size: u64 = files
        .iter()
        .map(|file| fs::metadata(file).map_or(0, |data| data.len()))
        .sum();
    assert!(size < 2_800_000, "{size} bytes");
    let cases = cases();
    let names: BTreeSet<&str> = cases.iter().map(Case::name).collect();
    assert_eq!(names.len(), cases.len());
    println!("corpus: {} cases, {size} bytes", cases.len());
}

#[test]
fn the_corpus_has_every_number_and_both_verdicts() {
    let mut seen = BTreeSet::new();
    for case in cases() {
        let answer = match case {
            Case::Check(case) => match &case.answer {
                Expected::Order(_) => Ok(0),
                Expected::Ring(_) => Ok(100),
                Expected::Refused(refusal) => Err(refusal),
            },
            Case::Slip(case) => case.answer.as_ref().map(|_| 0),
            Case::StartWrite(case) => case.answer.as_ref().map(|_| 0),
            Case::StartRead(case) => case.answer.as_ref().map(|_| 0),
        };
        seen.insert(answer.unwrap_or_else(|refusal| refusal.number));
    }
    let all: BTreeSet<u8> = number::ALL.into_iter().chain([0, 100]).collect();
    assert_eq!(seen, all);
}

/// The cases from before #111 whose ring it changed; the last two are 14, and only list it.
const OTHER_RINGS: [&str; 15] = [
    "judged-22",
    "judged-923",
    "judged-1587",
    "judged-later-72",
    "judged-later-376",
    "judged-later-487",
    "neighbours-judged-130",
    "neighbours-judged-160",
    "neighbours-judged-later-59",
    "ranks-judged-later-21",
    "starts-judged-33",
    "sums-judged-5",
    "sums-judged-487",
    "refused-later-14-1266",
    "refused-later-14-4610",
];

#[test]
fn rings_are_other_than_document_01s_where_it_is_said() {
    let changed = |case: &&CheckCase| {
        let accepted = accept(&case.program, &case.start, &case.record);
        accepted.is_ok_and(|run| former_groups(&run) != run.verdict.groups())
    };
    let checks = cases().iter().filter_map(|case| match case {
        Case::Check(case) => Some(case),
        _ => None,
    });
    let names: BTreeSet<&str> = checks.filter(changed).map(|case| &case.name[..]).collect();
    let (new, old): (BTreeSet<&str>, BTreeSet<&str>) = names
        .into_iter()
        .partition(|name| name.starts_with("shortest-") || name.starts_with("points-"));
    assert_eq!(old, BTreeSet::from(OTHER_RINGS));
    println!(
        "corpus: {} rings of the cases since #111 are other than document 01's",
        new.len()
    );
    assert!(new.len() >= 90);
}

#[test]
fn extremes_have_the_answers_known_beforehand() {
    let answer = |name: &str| {
        let found = cases().iter().find(|case| case.name() == name);
        match found {
            Some(Case::Check(case)) => case.answer.clone(),
            other => panic!("{name}: {other:?}"),
        }
    };
    let numbers = |count: u16| (0..count).collect::<Vec<u16>>();
    assert_eq!(answer("run-m-1024"), Expected::Order(numbers(1024)));
    assert_eq!(answer("long-ring"), Expected::Ring(numbers(1022)));
    assert_eq!(answer("rows-of-8"), Expected::Order(numbers(128)));
    assert_eq!(
        answer("readers-then-writer"),
        Expected::Order(numbers(1024))
    );
    assert_eq!(answer("transitions-128"), Expected::Order(numbers(128)));
    assert_eq!(answer("tokens-15"), Expected::Order(numbers(1)));
    let no_value = Refusal {
        number: 18,
        place: 0,
    };
    assert_eq!(answer("tokens-15-right"), Expected::Refused(no_value));
    assert_eq!(answer("smallest"), Expected::Order(numbers(0)));
    assert!(matches!(answer("ring-of-8-ranks"), Expected::Ring(ring) if ring.len() == 16));
}

#[test]
fn malformed_corpus_texts_are_refused_at_their_line() {
    let sound = "case x\nprogram -\nrecord 00\norder-entries 1\ncell-entries 2\n\
        answer refused 1 0\nlisting refused 1 0\nend\n";
    assert_eq!(parse(sound).map(|cases| cases.len()), Ok(1));
    let faults = [
        ("record 00", "record 0", "line 3"),
        ("record 00", "record 0x", "line 3"),
        ("record 00", "recrod 00", "line 3"),
        ("order-entries 1", "order-entries -1", "line 4"),
        ("answer refused 1 0", "answer refused 17 0", "line 6"),
        ("answer refused 1 0", "answer refused 20 0", "line 6"),
        ("record 00", "start 0\nrecord 00", "line 3"),
        ("record 00", "record 00\nstart 00", "line 4"),
        ("answer refused 1 0", "answer refused 1", "line 6"),
        ("answer refused 1 0", "answer maybe", "line 6"),
        ("answer refused 1 0", "answer order 1 70000", "line 6"),
        ("end\n", "", "line 7"),
        ("end\n", "end\nnoise\n", "line 9"),
        ("case x", "slip-case x", "line 2"),
    ];
    for (from, to, line) in faults {
        let fault = parse(&sound.replace(from, to)).expect_err(to);
        assert!(fault.starts_with(line), "{to}: {fault}");
    }
    assert!(parse(&sound.repeat(2)).is_err_and(|fault| fault.contains("second case")));
}
