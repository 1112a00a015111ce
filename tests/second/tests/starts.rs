//! #103 by hand on raw bytes, and the rules that hold of every start: what is written is read as the
//! same cells, and one start has one form.

mod common;

use common::cases;
use second::check::{answer, check, Answer};
use second::corpus::Case;
use second::generator::starts::{start_read_case, start_write_case};
use second::limits::Refusal;
use second::listing::listing_text;
use second::program::Program;
use second::slip::write_slip;
use second::start::{read_start, start_bytes, start_of, write_start};

/// N 2, A 9, R 1, Q 1, S 1 and one transition: load, register 0 takes cell 8.
const PROGRAM: [u8; 14] = [2, 9, 1, 1, 1, 1, 3, 1, 0, 0, 0, 0, 0, 8];
/// Rank 1 has 5 in cell 0 and 258 in cell 8, rank 2 has 65,535 in cell 3.
#[rustfmt::skip]
const START: [u8; 22] = [
    0, 0, 0, 0, 0, 0, 1, 1,  0, 5, 1, 2,
    0, 0, 0, 0, 0, 0, 0, 8,  255, 255,
];
/// A load of rank 1 that gives 258, and one of rank 2 that gives 0.
#[rustfmt::skip]
const RECORD: [u8; 20] = [
    0, 2,
    59, 1, 1, 0, 1, 0, 8, 1, 2,
    59, 1, 2, 0, 2, 0, 8, 0, 0,
];

/// The refusal from these start bytes.
fn refusal(start: &[u8]) -> Option<(u8, usize)> {
    match answer(&PROGRAM, start, &RECORD, 2, 18).answer {
        Answer::Refused(Refusal { number, place }) => Some((number, place)),
        _ => None,
    }
}

#[test]
fn loads_see_the_readings() {
    let (mut order, mut cells) = ([9; 3], [9; 19]);
    let found = check(&PROGRAM, &START, &RECORD, &mut order, &mut cells);
    assert_eq!((found, order), (Answer::Order(2), [0, 1, 9]));
    let mut right = [0; 19];
    (right[0], right[8], right[12], right[18]) = (5, 258, 65_535, 9);
    assert_eq!(cells, right);
    let mut slip = [0; 5];
    assert_eq!(write_slip(&PROGRAM, &START, &RECORD, &mut slip), Ok(5));
    assert_eq!(slip, [3, 0, 1, 0, 1]);
    let lines = "order 2\ngroup 0 load 1 0\ngroup 1 load 2 1\n\
        cell 1 0 5\ncell 1 8 258\ncell 2 3 65535\n";
    assert_eq!(listing_text(&PROGRAM, &START, &RECORD).0, lines);
}

#[test]
fn no_bytes_and_the_zero_start_are_the_same() {
    assert_eq!(refusal(&[]), Some((11, 0)));
    assert_eq!(refusal(&[0; 16]), Some((11, 0)));
    for start in [&[][..], &[0; 16]] {
        assert_eq!(listing_text(&PROGRAM, start, &[0, 0]).0, "order 0\n");
    }
}

#[test]
fn a_fault_is_19_at_its_field() {
    for length in 1..START.len() {
        assert_eq!(refusal(&START[..length]), Some((19, length)));
    }
    let with = |at: usize, bytes: &[u8]| {
        let mut changed = START.to_vec();
        changed[at..at + bytes.len()].copy_from_slice(bytes);
        refusal(&changed)
    };
    assert_eq!(refusal(&[&START[..], &[0]].concat()), Some((19, 22)));
    assert_eq!(with(6, &[2]), Some((19, 0)));
    assert_eq!(with(0, &[128]), Some((19, 0)));
    assert_eq!(with(18, &[4, 8]), Some((19, 12)));
    assert_eq!(with(8, &[0, 0]), Some((19, 8)));
    assert_eq!(with(10, &[0, 0]), Some((19, 10)));
    assert_eq!(with(20, &[0, 0]), Some((19, 20)));
    assert_eq!(
        listing_text(&PROGRAM, &[0], &[]).0,
        "refused 19 1\n".to_string()
    );
}

#[test]
fn the_last_cells_are_written_as_a_start() {
    let mut cells = [0; 18];
    check(&PROGRAM, &START, &RECORD, &mut [0; 2], &mut cells);
    let mut start = [7; 24];
    assert_eq!(write_start(&PROGRAM, &cells, &mut start), Ok(22));
    assert_eq!(start[..22], START);
    assert_eq!(start[22..], [7, 7]);
    let short = |number, place| Err(Refusal { number, place });
    assert_eq!(write_start(&PROGRAM, &cells, &mut [0; 21]), short(15, 22));
    assert_eq!(write_start(&PROGRAM, &cells[..17], &mut []), short(15, 18));
    let mut again = [9; 19];
    assert_eq!(read_start(&PROGRAM, &START, &mut again), Ok(18));
    assert_eq!((&again[..18], again[18]), (&cells[..], 9));
    assert_eq!(read_start(&PROGRAM, &START, &mut [9; 17]), short(15, 18));
}

#[test]
fn what_is_written_is_read_as_the_same_cells() {
    for index in 0..3_000 {
        let case = start_write_case(41, index);
        let Ok(start) = case.answer else { continue };
        let program = Program::read(&case.program).expect("a start was written");
        let read = start_of(&program, &start).expect("what is written can be read");
        let cells = read.cells();
        assert_eq!(cells, case.cells[..cells.len()], "seed 41, index {index}");
    }
}

/// Fails if start bytes that are taken are not those that the writer writes, but for no bytes.
fn assert_one_form(name: &str, program: &[u8], start: &[u8]) {
    let read = Program::read(program).and_then(|program| start_of(&program, start));
    if let Ok(read) = read {
        assert!(start.is_empty() || start_bytes(&read) == start, "{name}");
    }
}

#[test]
fn one_start_has_one_form() {
    for index in 0..6_000 {
        let case = start_read_case(42, index);
        assert_one_form(&format!("index {index}"), &case.program, &case.start);
    }
    for case in cases() {
        match case {
            Case::Check(case) => assert_one_form(&case.name, &case.program, &case.start),
            Case::StartRead(case) => assert_one_form(&case.name, &case.program, &case.start),
            Case::StartWrite(_) | Case::Slip(_) => {}
        }
    }
}
