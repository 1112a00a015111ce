//! A table of verdicts must catch wrong verdicts on map and kind, in whichever function they are.

mod common;

use common::{is_cut, refused, told};
use second::check::{check_bytes, Answer};
use second::extras::{listed, slip_written, Extras, Functions, Told, Writer, SECOND};
use second::forms::hold::{hold, Readers, Shown};
use second::forms::table::Table;
use second::forms::{Form, Pair};
use second::harness::{between_guards, Subject};
use second::limits::Refusal;
use second::record::{fields, items_of};

/// The functions that read a record.
const FUNCTIONS: [&str; 3] = ["check", "slip writer", "listing"];

/// A mistake about pairs: for an item's number and its pair, the pair that the item is taken for.
type Mistake<'a> = &'a dyn Fn(usize, Pair) -> Pair;

/// A pair.
const fn pair(map: u8, kind: u8) -> Pair {
    Pair { map, kind }
}

/// The mistake that one pair is another.
fn taken_for(wrong: Pair, pair: Pair) -> impl Fn(usize, Pair) -> Pair {
    move |_, old| if old == wrong { pair } else { old }
}

/// The record as someone reads it who makes the mistake.
fn mistaken(mistake: Mistake, record: &[u8]) -> Vec<u8> {
    let mut mistaken = record.to_vec();
    for (index, at) in items_of(record).into_iter().enumerate() {
        let Pair { map, kind } = mistake(index, pair(record[at], record[at + 1]));
        mistaken[at..at + 2].copy_from_slice(&[map, kind]);
    }
    mistaken
}

/// Holds a subject of these functions to the papers' table.
fn held(check: Subject, write_slip: Writer, list: Writer) -> Result<Shown, String> {
    let readers = Readers {
        check: &between_guards(check),
        extras: &Extras::between_guards(Functions {
            write_slip,
            list,
            ..SECOND
        }),
    };
    hold(&Table::of_the_papers(), &readers)
}

/// Holds a subject to the table whose one function makes the mistake, and no other does.
fn held_with(function: &str, mistake: Mistake) -> Result<Shown, String> {
    match function {
        "check" => held(
            &|program, start, record, order, cells| {
                check_bytes(program, start, &mistaken(mistake, record), order, cells)
            },
            &slip_written,
            &listed,
        ),
        "slip writer" => held(
            &check_bytes,
            &|program, start, record, slip| {
                slip_written(program, start, &mistaken(mistake, record), slip)
            },
            &listed,
        ),
        "listing" => held(
            &check_bytes,
            &slip_written,
            &|program, start, record, text| {
                listed(program, start, &mistaken(mistake, record), text)
            },
        ),
        _ => panic!("there is no {function}"),
    }
}

/// Fails unless a subject was caught with these first words.
fn assert_fault(held: Result<Shown, String>, begin: &str) {
    let fault = held.expect_err("the mistake must be caught");
    assert!(fault.starts_with(begin), "{begin}: {fault}");
    for part in [
        "\nprogram 0203020201",
        "\nrecord 00",
        "\nright: ",
        "\nsubject: ",
    ] {
        assert!(fault.contains(part), "{part}: {fault}");
    }
}

/// Fails unless the mistake is caught in each function at this pair, with these two verdicts.
fn assert_caught(mistake: Mistake, at: Pair, table: &str, seen: &str) {
    for function in FUNCTIONS {
        let begin = format!("{at}: {table} in the table, {seen} by the {function}\n");
        assert_fault(held_with(function, mistake), &begin);
    }
}

#[test]
fn no_mistake_is_not_caught() {
    for function in FUNCTIONS {
        assert!(held_with(function, &|_, pair| pair).is_ok());
    }
}

#[test]
fn a_map_of_one_kind_exchanged_for_another_kinds() {
    for (kind, right, wrong) in [
        (1, 27, 29),
        (1, 59, 61),
        (2, 27, 29),
        (2, 59, 61),
        (3, 3, 27),
        (4, 3, 29),
        (5, 3, 59),
        (6, 3, 61),
        (7, 29, 59),
        (8, 29, 59),
        (9, 3, 27),
    ] {
        let (right, wrong) = (pair(right, kind), pair(wrong, kind));
        let mistake = |_, old| match old {
            old if old == right => wrong,
            old if old == wrong => right,
            old => old,
        };
        assert_caught(&mistake, right, "good", "wrong-map");
    }
}

#[test]
fn another_kinds_map_taken_too() {
    for (kind, own, other) in [(1, 27, 29), (2, 59, 61), (7, 29, 27), (8, 61, 59)] {
        let other = pair(other, kind);
        let mistake = taken_for(other, pair(own, kind));
        assert_caught(&mistake, other, "wrong-map", "good");
    }
}

#[test]
fn a_map_with_the_values_bit_refused() {
    for valued in [pair(59, 1), pair(59, 2), pair(61, 7), pair(61, 8)] {
        let mistake = taken_for(valued, pair(255, valued.kind));
        assert_caught(&mistake, valued, "good", "wrong-map");
    }
}

#[test]
fn the_values_bit_not_looked_at() {
    let mistake = |_, old: Pair| match old.kind {
        3..=6 | 9 => pair(old.map & !32, old.kind),
        _ => old,
    };
    assert_caught(&mistake, pair(35, 3), "wrong-map", "good");
}

#[test]
fn bit_6_not_looked_at() {
    let mistake = |_, old: Pair| pair(old.map & !64, old.kind);
    assert_caught(&mistake, pair(27 + 64, 1), "wrong-map", "good");
}

/// The good pairs that bring a transition's high byte.
const HIGH: [Pair; 9] = [
    pair(155, 1),
    pair(187, 1),
    pair(155, 2),
    pair(187, 2),
    pair(131, 3),
    pair(131, 4),
    pair(131, 5),
    pair(131, 6),
    pair(131, 9),
];

#[test]
fn bit_7_refused() {
    for high in HIGH {
        let mistake = taken_for(high, pair(255, high.kind));
        assert_caught(&mistake, high, "good", "wrong-map");
    }
    let mistake = |_, old: Pair| match old.map & 128 {
        0 => old,
        _ => pair(255, old.kind),
    };
    assert_caught(&mistake, pair(155, 1), "good", "wrong-map");
}

/// The good pairs that bring a remote rank.
const NAMED: [Pair; 4] = [pair(93, 7), pair(125, 7), pair(93, 8), pair(125, 8)];

#[test]
fn bit_6_refused() {
    for named in NAMED {
        let mistake = taken_for(named, pair(255, named.kind));
        assert_caught(&mistake, named, "good", "wrong-map");
    }
}

#[test]
fn bit_6_taken_with_a_command() {
    for (kind, map) in [(1, 59), (2, 27), (3, 3), (4, 131), (5, 3), (6, 131), (9, 3)] {
        let named = pair(map + 64, kind);
        assert_caught(
            &taken_for(named, pair(map, kind)),
            named,
            "wrong-map",
            "good",
        );
    }
}

#[test]
fn bit_6_of_a_pop_taken_with_a_bit_too_few_or_too_many() {
    for (named, map) in NAMED.into_iter().zip([93 - 4, 125 + 2, 93 + 128, 125 - 8]) {
        let other = pair(map, named.kind);
        assert_caught(&taken_for(other, named), other, "wrong-map", "good");
    }
}

#[test]
fn the_remote_rank_passed_over() {
    let reading = |record: &[u8]| items_changed(record, &NAMED, |item| item[0] -= 64);
    assert_reading_caught(reading, pair(93, 7));
}

#[test]
fn the_remote_rank_read_before_the_value() {
    let reading = |record: &[u8]| {
        items_changed(record, &NAMED, |item| {
            if item[0] == 125 {
                item[7..].rotate_left(1);
            }
        })
    };
    assert_reading_caught(reading, pair(125, 7));
}

#[test]
fn bit_7_taken_with_a_pop() {
    for (kind, map) in [(7, 29), (7, 61), (8, 29), (8, 61)] {
        let high = pair(map + 128, kind);
        assert_caught(&taken_for(high, pair(map, kind)), high, "wrong-map", "good");
    }
}

#[test]
fn bit_7_taken_without_bit_1() {
    for high in HIGH {
        let without = pair(high.map - 2, high.kind);
        assert_caught(&taken_for(without, high), without, "wrong-map", "good");
    }
}

#[test]
fn bit_7_taken_with_a_bit_that_is_not_the_kinds() {
    for (kind, map, more) in [(1, 155, 4), (2, 187, 64), (3, 131, 32), (6, 131, 24)] {
        let other = pair(map + more, kind);
        assert_caught(
            &taken_for(other, pair(map, kind)),
            other,
            "wrong-map",
            "good",
        );
    }
}

/// Fails unless a subject that reads all items in another way is caught in each function at this
/// pair, although its verdicts on the pairs alone are right.
fn assert_reading_caught(reading: fn(&[u8]) -> Vec<u8>, at: Pair) {
    let check: Subject = &|program, start, record, order, cells| {
        check_bytes(program, start, &reading(record), order, cells)
    };
    let write_slip: Writer =
        &|program, start, record, slip| slip_written(program, start, &reading(record), slip);
    let list: Writer =
        &|program, start, record, text| listed(program, start, &reading(record), text);
    let begin = format!("{at}: good in the table, no verdict by the ");
    assert_fault(held(check, &slip_written, &listed), &begin);
    assert_fault(held(&check_bytes, write_slip, &listed), &begin);
    assert_fault(held(&check_bytes, &slip_written, list), &begin);
}

/// The record with the bytes of each whole item that has one of these pairs changed.
fn items_changed(record: &[u8], pairs: &[Pair], change: fn(&mut Vec<u8>)) -> Vec<u8> {
    let mut changed = record[..2].to_vec();
    for at in items_of(record) {
        let end = record.len().min(at + 2 + fields(record[at]));
        let mut item = record[at..end].to_vec();
        let such = pairs.contains(&pair(item[0], item[1]));
        if such && !is_cut(record, at) {
            change(&mut item);
        }
        changed.extend(item);
    }
    changed
}

#[test]
fn the_high_byte_passed_over() {
    let reading = |record: &[u8]| {
        items_changed(record, &HIGH, |item| {
            item[0] -= 128;
            item.pop();
        })
    };
    assert_reading_caught(reading, pair(155, 1));
}

#[test]
fn the_high_byte_read_before_the_value() {
    let reading = |record: &[u8]| {
        items_changed(record, &HIGH, |item| {
            if item[0] == 187 {
                item[7..].rotate_left(1);
            }
        })
    };
    assert_reading_caught(reading, pair(187, 1));
}

#[test]
fn the_high_byte_read_right_after_the_low_one() {
    let reading = |record: &[u8]| items_changed(record, &HIGH, |item| item[4..].rotate_left(1));
    assert_reading_caught(reading, pair(155, 1));
}

#[test]
fn bit_7_refused_beside_a_program_without_such_transitions() {
    let check: Subject = &|program, start, record, order, cells| {
        let is_high = |&at: &usize| HIGH.contains(&pair(record[at], record[at + 1]));
        match items_of(record).into_iter().find(is_high) {
            Some(at) if program[5] != 255 => refused(6, at),
            _ => check_bytes(program, start, record, order, cells),
        }
    };
    let begin = "kind 1 map 155: good in the table, wrong-map by the check\n";
    assert_fault(held(check, &slip_written, &listed), begin);
}

#[test]
fn the_map_judged_before_the_kind() {
    let mistake = |_, old: Pair| match (old.form(), old.map) {
        (Form::UnknownKind, 3 | 27 | 29 | 59 | 61 | 93 | 125 | 131 | 155 | 187) => old,
        (Form::UnknownKind, map) => pair(map, 1),
        _ => old,
    };
    assert_caught(&mistake, pair(0, 0), "unknown-kind", "wrong-map");
}

#[test]
fn a_fault_of_the_map_placed_at_the_kind() {
    let mistake = |_, old: Pair| match old.form() {
        Form::WrongMap => pair(old.map, 0),
        _ => old,
    };
    assert_caught(&mistake, pair(0, 1), "wrong-map", "unknown-kind");
}

#[test]
fn a_fault_of_the_kind_placed_at_the_map() {
    let mistake = |_, old: Pair| match old.form() {
        Form::UnknownKind => pair(255, 1),
        _ => old,
    };
    assert_caught(&mistake, pair(0, 0), "unknown-kind", "wrong-map");
}

#[test]
fn an_unknown_kind_taken() {
    for (unknown, known) in [(0, 9), (10, 5), (11, 6), (255, 9)] {
        // With all maps of a kind that there is, then with a right one alone.
        let mistake = |_, old: Pair| match old.kind {
            kind if kind == unknown => pair(old.map, known),
            _ => old,
        };
        assert_caught(&mistake, pair(0, unknown), "unknown-kind", "wrong-map");
        let mistake = taken_for(pair(3, unknown), pair(3, known));
        assert_caught(&mistake, pair(3, unknown), "unknown-kind", "good");
    }
}

#[test]
fn a_known_kind_refused() {
    for known in 1..=9 {
        let mistake = |_, old: Pair| match old.kind {
            kind if kind == known => pair(old.map, 0),
            _ => old,
        };
        assert_caught(&mistake, pair(0, known), "wrong-map", "unknown-kind");
    }
}

#[test]
fn a_mistake_about_the_first_item_only_or_about_later_ones() {
    for later in [false, true] {
        let mistake = |index, old: Pair| match old.form() {
            Form::WrongMap if (index > 0) == later => pair(old.map, 0),
            _ => old,
        };
        assert_caught(&mistake, pair(0, 1), "wrong-map", "unknown-kind");
    }
}

/// The place of a fault as if its item were the first.
fn as_if_first(record: &[u8], place: usize) -> usize {
    2 + usize::from(!items_of(record).contains(&place))
}

#[test]
fn a_place_that_is_right_for_the_first_item_only() {
    let check: Subject = &|program, start, record, order, cells| match check_bytes(
        program, start, record, order, cells,
    ) {
        Answer::Refused(Refusal { number: 6, place }) => refused(6, as_if_first(record, place)),
        other => other,
    };
    let write_slip: Writer =
        &|program, start, record, slip| match slip_written(program, start, record, slip) {
            Told { number: 6, value } => told(6, as_if_first(record, value)),
            other => other,
        };
    let begin = "kind 0 map 0: unknown-kind in the table, no verdict by the ";
    assert_fault(held(check, &slip_written, &listed), begin);
    assert_fault(held(&check_bytes, write_slip, &listed), begin);
}

#[test]
fn a_map_refused_only_where_all_its_fields_follow() {
    let check: Subject = &|program, start, record, order, cells| {
        let whole = |&at: &usize| record[at..].starts_with(&[59, 1]) && !is_cut(record, at);
        match items_of(record).into_iter().find(whole) {
            Some(at) => refused(6, at),
            None => check_bytes(program, start, record, order, cells),
        }
    };
    let begin = "kind 1 map 59: good in the table, wrong-map by the check\n";
    assert_fault(held(check, &slip_written, &listed), begin);
}

#[test]
fn a_missing_field_told_before_the_map_is_judged() {
    let check: Subject = &|program, start, record, order, cells| {
        if items_of(record)
            .last()
            .is_some_and(|&at| is_cut(record, at))
        {
            return refused(4, record.len());
        }
        check_bytes(program, start, record, order, cells)
    };
    let begin = "kind 0 map 1: unknown-kind in the table, good by the check\n";
    assert_fault(held(check, &slip_written, &listed), begin);
}

#[test]
fn lent_memory_changed_with_a_refusal() {
    let check: Subject = &|program, start, record, order, cells| {
        let answer = check_bytes(program, start, record, order, cells);
        if matches!(answer, Answer::Refused(Refusal { number: 6, .. })) {
            order[0] = 0;
        }
        answer
    };
    let write_slip: Writer = &|program, start, record, slip| {
        let told = slip_written(program, start, record, slip);
        if told.number == 6 {
            slip[0] = 0;
        }
        told
    };
    let list: Writer = &|program, start, record, text| {
        let told = listed(program, start, record, text);
        if told.number == 6 {
            text[told.value] = 0;
        }
        told
    };
    let begin = "kind 0 map 0: unknown-kind in the table, no verdict by the ";
    assert_fault(held(check, &slip_written, &listed), begin);
    assert_fault(held(&check_bytes, write_slip, &listed), begin);
    assert_fault(held(&check_bytes, &slip_written, list), begin);
}
