//! #102 of document 02 by bytes that are written out here: sums, differences and products at the
//! edge and beyond, and the faults of one item. Then every 18 of the corpus, found once more.

mod common;

use common::{accept_dated, cases};
use second::check::{answer, Answer};
use second::corpus::{Case, CheckCase, Expected};
use second::expression::{Environment, Expression, Operator};
use second::limits::Refusal;
use second::listing::listing_text;
use second::machine::Machine;
use second::program::Program;
use second::record::read_record;
use second::slip::write_slip;
use second::start::start_of;

/// N 2, A 2, R 1, Q 1, S 1, T 4; the numbers are the places of the bytes.
#[rustfmt::skip]
const PROGRAM: [u8; 57] = [
    2, 2, 1, 1, 1, 4,
    0, 9, 0, 0,                                        // 6: transition 0, bar
    30, 6, 0, 0,                                       // 10: transition 1, write
    0, 0, 0,  0x11, 0, 0, 3, 2,                        // 14: own cell 0; 17: rank 3 − own
    0, 0, 1,  0x12, 0, 0, 0, 3,                        // 22: remote cell 1; 25: queue 0 × N
    2, 4, 0, 0,  0x14, 0, 0, 0, 0x10, 2, 0, 255, 253,  // 30: transition 2, assume 0 < own + 65,533
    6, 2, 0, 0,  0, 0, 0,  0x12, 0, 0, 255, 0, 1, 1,   // 43: transition 3, store of 255 × 257
];

/// A store of 65,535, an assume of rank 2, where own + 65,533 is 65,535 too, and a write.
#[rustfmt::skip]
const RECORD: [u8; 35] = [
    0, 5,
    59, 2, 1, 3, 1, 0, 0, 255, 255,   // 2: item 0, store of rank 1
    3, 4, 2, 2,                       // 11: item 1, assume of rank 2
    3, 6, 1, 1,                       // 15: item 2, write of rank 1
    61, 7, 1, 0, 1, 0, 0, 255, 255,   // 19: item 3, popa at cell 0 of rank 1
    29, 8, 1, 0, 2, 0, 1,             // 28: item 4, popb at cell 1 of rank 2
];

/// The bytes with some of them replaced.
fn with(bytes: &[u8], changes: &[(usize, u8)]) -> Vec<u8> {
    let mut changed = bytes.to_vec();
    for &(at, byte) in changes {
        changed[at] = byte;
    }
    changed
}

/// The refusal of the program and the record with some bytes replaced.
fn refusal(program: &[(usize, u8)], record: &[(usize, u8)]) -> Option<(u8, usize)> {
    let (program, record) = (with(&PROGRAM, program), with(&RECORD, record));
    match answer(&program, &[], &record, 3, 4).answer {
        Answer::Refused(Refusal { number, place }) => Some((number, place)),
        _ => None,
    }
}

#[test]
fn values_at_the_edge_are_values() {
    let filled = answer(&PROGRAM, &[], &RECORD, 3, 4);
    assert_eq!(filled.answer, Answer::Order(3));
    assert_eq!(filled.groups, [0, 1, 2]);
    assert_eq!(filled.cells, [65_535, 0, 0, 65_535]);
    let mut slip = [0; 5];
    assert_eq!(write_slip(&PROGRAM, &[], &RECORD, &mut slip), Ok(5));
    assert_eq!(slip, [3, 0, 2, 0, 1]);
    let lines = "order 3\ngroup 0 store 1 0\ngroup 1 assume 2 1\ngroup 2 write 1 2\n\
        cell 1 0 65535\ncell 2 1 65535\n";
    assert_eq!(listing_text(&PROGRAM, &[], &RECORD).0, lines);
}

#[test]
fn one_step_beyond_is_18_at_the_item() {
    // 255 × 258, own + 65,534 at rank 2, 0 − own, 65,535 × N
    assert_eq!(refusal(&[(56, 2)], &[]), Some((18, 0)));
    assert_eq!(refusal(&[(42, 254)], &[]), Some((18, 1)));
    assert_eq!(refusal(&[(20, 0)], &[]), Some((18, 2)));
    assert_eq!(refusal(&[(27, 255), (28, 255)], &[]), Some((18, 2)));
    // the first item decides
    assert_eq!(refusal(&[(42, 254), (20, 0)], &[]), Some((18, 1)));
}

#[test]
fn slip_writer_and_listing_pass_18_on() {
    let program = with(&PROGRAM, &[(20, 0)]);
    let mut slip = [7; 5];
    let no_value = Refusal {
        number: 18,
        place: 2,
    };
    assert_eq!(write_slip(&program, &[], &RECORD, &mut slip), Err(no_value));
    assert_eq!(slip, [7; 5]);
    assert_eq!(listing_text(&program, &[], &RECORD).0, "refused 18 2\n");
}

#[test]
fn an_item_has_12_then_7_then_18_then_8_then_11() {
    // 1 − own at rank 1 is 0, and the own cell 2 is none: 8 alone, and after 18
    assert_eq!(refusal(&[(20, 1)], &[]), Some((8, 2)));
    assert_eq!(refusal(&[(16, 2)], &[]), Some((8, 2)));
    assert_eq!(refusal(&[(16, 2), (20, 0)], &[]), Some((18, 2)));
    assert_eq!(refusal(&[(20, 1), (28, 1)], &[]), Some((8, 2)));
    assert_eq!(
        refusal(&[(20, 1), (27, 255), (28, 255)], &[]),
        Some((18, 2))
    );
    // another value than is stored: 11 alone, and after 18
    assert_eq!(refusal(&[], &[(10, 0)]), Some((11, 0)));
    assert_eq!(refusal(&[(56, 2)], &[(10, 0)]), Some((18, 0)));
    // a store said to take the assume: 7 before 18
    assert_eq!(refusal(&[], &[(5, 2)]), Some((7, 0)));
    assert_eq!(refusal(&[(42, 255)], &[(5, 2)]), Some((7, 0)));
    // a bar of rank 1 for the assume: 12 before 18
    let bar = [(12, 9), (13, 1), (14, 0)];
    assert_eq!(refusal(&[], &bar), Some((12, 2)));
    assert_eq!(refusal(&[(20, 0)], &bar), Some((12, 2)));
}

#[test]
fn an_assume_has_18_before_9() {
    // own < 1 − 1 gives 0, and own < 1 − 2 has no value
    let tokens = |tokens: [u8; 9]| (34..43).zip(tokens).collect::<Vec<_>>();
    let gives_0 = tokens([0x14, 2, 0x11, 0, 0, 1, 0, 0, 1]);
    assert_eq!(refusal(&gives_0, &[]), Some((9, 1)));
    let without = tokens([0x14, 2, 0x11, 0, 0, 1, 0, 0, 2]);
    assert_eq!(refusal(&without, &[]), Some((18, 1)));
}

/// What a program of one rank stores in its only cell: the value, or number and place.
fn stored(tokens: &[u8]) -> Result<u16, (u8, usize)> {
    let program = [&[1, 1, 1, 1, 1, 1, 6, 2, 0, 0, 0, 0, 0], tokens].concat();
    let filled = answer(&program, &[], &[0, 1, 27, 2, 1, 0, 1, 0, 0], 1, 1);
    match filled.answer {
        Answer::Refused(Refusal { number, place }) => Err((number, place)),
        _ => Ok(filled.cells[0]),
    }
}

/// The token and the two bytes of a constant.
fn constant(value: u32) -> [u8; 3] {
    let [high, low] = (value as u16).to_be_bytes();
    [0, high, low]
}

/// Numbers about all edges and roots.
const NUMBERS: [u32; 20] = [
    0, 1, 2, 3, 4, 5, 254, 255, 256, 257, 258, 13_107, 13_108, 21_845, 21_846, 32_767, 32_768,
    32_769, 65_534, 65_535,
];

#[test]
fn all_pairs_of_numbers_about_the_edges() {
    for first in NUMBERS {
        for second in NUMBERS {
            let of = |token| stored(&[&[token], &constant(first)[..], &constant(second)].concat());
            let within = |passes: bool, value: u32| match passes {
                true => Err((18, 0)),
                false => Ok(value as u16),
            };
            let (sum, product) = (first + second, first * second);
            assert_eq!(of(0x10), within(sum > 65_535, sum));
            let difference = first.wrapping_sub(second);
            assert_eq!(of(0x11), within(first < second, difference));
            assert_eq!(of(0x12), within(product > 65_535, product));
            assert_eq!(of(0x13), within(false, u32::from(first == second)));
            assert_eq!(of(0x14), within(false, u32::from(first < second)));
        }
    }
}

#[test]
fn what_holds_it_has_no_value_either() {
    let passing: [&[u8]; 3] = [
        &[0x10, 0, 255, 255, 0, 0, 1],
        &[0x11, 0, 0, 0, 0, 0, 1],
        &[0x12, 0, 1, 0, 0, 1, 0],
    ];
    for part in passing {
        assert_eq!(stored(part), Err((18, 0)));
        for token in 0x10..=0x14 {
            for value in NUMBERS {
                let first = [&[token], part, &constant(value)].concat();
                assert_eq!(stored(&first), Err((18, 0)), "{token} {value}");
                let second = [&[token], &constant(value)[..], part].concat();
                assert_eq!(stored(&second), Err((18, 0)), "{token} {value}");
            }
        }
    }
}

/// The values of all parts of an expression, without any range, the whole expression's last.
fn parts(expression: &Expression, environment: &Environment) -> Vec<i128> {
    let leaf = |value: usize| vec![value as i128];
    match expression {
        Expression::Constant(value) => leaf((*value).into()),
        Expression::Register(register) => leaf(environment.registers[*register].into()),
        Expression::OwnRank => leaf(environment.rank),
        Expression::RankCount => leaf(environment.ranks),
        Expression::Binary(operator, first, second)
        | Expression::Dated(operator, first, second) => {
            let mut all = parts(first, environment);
            let first = all[all.len() - 1];
            all.extend(parts(second, environment));
            let second = all[all.len() - 1];
            all.push(match operator {
                Operator::Sum => first.saturating_add(second),
                Operator::Difference => first.saturating_sub(second),
                Operator::Product => first.saturating_mul(second),
                Operator::Equal => i128::from(first == second),
                Operator::Less => i128::from(first < second),
            });
            all
        }
    }
}

/// The first item, from the start on, that comes to its expressions by document 01 alone and has
/// one with a part outside the range; none if another is refused before.
fn first_passing(program: &Program, start: &[u8], record: &[u8]) -> Option<usize> {
    let start = start_of(program, start).ok()?;
    let items = read_record(record, program).ok()?;
    let dated = program.clone().dated();
    let mut machine = Machine::new(&dated, &start);
    for (place, item) in items.iter().enumerate() {
        let before = machine.clone();
        let done = machine.step(&dated, item);
        let reached = !matches!(done, Err(7 | 12));
        if let Some(taken) = item.act.transition().filter(|_| reached) {
            let rank = item.act.rank();
            let environment = Environment {
                registers: &before.rank(rank).registers,
                rank,
                ranks: program.ranks,
            };
            let outside = |value: &i128| !(0..=65_535).contains(value);
            let passes = |expression: &Expression| {
                let parts = parts(expression, &environment);
                parts.iter().any(outside)
            };
            if program.transitions[taken].expressions.iter().any(passes) {
                return Some(place);
            }
        }
        done.ok()?;
    }
    None
}

/// Fails unless a case is answered with 18 exactly where its first item passes the range, and else
/// as document 01 alone has it.
fn assert_found(case: &CheckCase) -> bool {
    let read = Program::read(&case.program);
    let place = read
        .ok()
        .and_then(|read| first_passing(&read, &case.start, &case.record));
    let dated = accept_dated(&case.program, &case.start, &case.record);
    let found = match (&case.answer, dated) {
        (Expected::Refused(Refusal { number: 18, place }), _) => Some(*place),
        (Expected::Refused(refusal), Err(dated)) => {
            assert_eq!(*refusal, dated, "{}", case.name);
            None
        }
        (_, dated) => {
            assert!(dated.is_ok(), "{}: {dated:?}", case.name);
            None
        }
    };
    assert_eq!(found, place, "{}", case.name);
    found.is_some()
}

#[test]
fn every_18_of_the_corpus_is_where_an_expression_first_passes_the_range() {
    let (mut without, mut others) = (0, 0);
    for case in cases() {
        if let Case::Check(case) = case {
            match assert_found(case) {
                true => without += 1,
                false => others += 1,
            }
        }
    }
    println!("18 in {without} cases, and something else in {others}");
    assert!(without >= 300);
}
