//! Cases for every row of document 01's table, their numbers and places worked out by hand.

use super::base::{join, one, program_with, record_of, record_with, BASE_PROGRAM, BASE_RECORD};
use super::row::Row;

/// A row of the table with long enough lists.
pub(super) fn row(what: &str, program: Vec<u8>, record: Vec<u8>, number: u8, place: usize) -> Row {
    Row::refused("table", what, [program, record], number, place)
}

/// A row with another program.
fn program_row(what: &str, program: Vec<u8>, number: u8, place: usize) -> Row {
    row(what, program, BASE_RECORD.to_vec(), number, place)
}

/// A row with another record.
fn record_row(what: &str, record: Vec<u8>, number: u8, place: usize) -> Row {
    row(what, BASE_PROGRAM.to_vec(), record, number, place)
}

/// All rows.
pub fn rows() -> Vec<Row> {
    let parts = [
        lengths(),
        program_ranges(),
        program_forms(),
        tokens(),
        record_ranges(),
    ];
    let later = [record_forms(), super::replay_table::rows(), precedence()];
    parts.into_iter().chain(later).flatten().collect()
}

/// Rows 1 and 4: every early end, and bytes left over.
fn lengths() -> Vec<Row> {
    let mut rows = Vec::new();
    for length in 0..BASE_PROGRAM.len() {
        rows.push(program_row(
            "cut",
            BASE_PROGRAM[..length].to_vec(),
            1,
            length,
        ));
    }
    for length in 0..BASE_RECORD.len() {
        rows.push(record_row("cut", BASE_RECORD[..length].to_vec(), 4, length));
    }
    rows.push(program_row("one-left", join(&BASE_PROGRAM, &[0]), 1, 81));
    rows.push(program_row(
        "three-left",
        join(&BASE_PROGRAM, &[9, 9, 9]),
        1,
        81,
    ));
    rows.push(program_row(
        "fewer-transitions",
        program_with(&[(5, 7)]),
        1,
        77,
    ));
    rows.push(program_row("no-transitions", program_with(&[(5, 0)]), 1, 6));
    rows.push(program_row(
        "more-transitions",
        program_with(&[(5, 9)]),
        1,
        81,
    ));
    rows.push(record_row("one-left", join(&BASE_RECORD, &[0]), 4, 57));
    rows.push(record_row("fewer-items", record_with(&[(1, 8)]), 4, 53));
    rows.push(record_row("no-items", record_with(&[(1, 0)]), 4, 2));
    rows.push(record_row("more-items", record_with(&[(1, 10)]), 4, 57));
    rows.push(record_row("count-half", vec![4], 4, 1));
    rows
}

/// Row 2: header numbers, states and registers outside their ranges.
fn program_ranges() -> Vec<Row> {
    let outside = [
        (0, 0),
        (0, 255),
        (1, 0),
        (1, 65),
        (2, 0),
        (2, 17),
        (3, 0),
        (3, 5),
        (4, 0),
        (4, 65),
        (5, 129),
        (8, 3),
        (9, 3),
        (17, 3),
        (18, 255),
        (75, 3),
        (76, 64),
        (19, 2),
        (27, 16),
        (14, 2),
        (58, 255),
    ];
    let mut rows: Vec<Row> = outside
        .into_iter()
        .map(|(at, byte)| program_row(&format!("byte-{byte}"), program_with(&[(at, byte)]), 2, at))
        .collect();
    rows.push(program_row("fewer-states", program_with(&[(4, 1)]), 2, 76));
    rows.push(program_row(
        "fewer-registers",
        program_with(&[(2, 1)]),
        2,
        14,
    ));
    // with #107 the two bytes behind a count byte of 255 are the count, here 1,538
    rows.push(program_row("byte-255", program_with(&[(5, 255)]), 2, 6));
    // with #105 there may be nine ranks: the read's remote rank, N, is 9, its fetch names rank 2
    rows.push(program_row("byte-9", program_with(&[(0, 9)]), 11, 5));
    rows.push(program_row("header-alone", vec![9], 1, 1));
    rows.push(program_row("header-start", vec![2, 65], 2, 1));
    rows
}

/// Row 3: kinds and maps.
fn program_forms() -> Vec<Row> {
    let mut rows = Vec::new();
    for kind in [0, 7, 8, 10, 255] {
        let what = format!("kind-{kind}");
        rows.push(program_row(&what, program_with(&[(7, kind)]), 3, 7));
        let what = format!("kind-{kind}-and-map");
        rows.push(program_row(
            &what,
            program_with(&[(73, 255), (74, kind)]),
            3,
            74,
        ));
    }
    for map in [0, 2, 3, 7, 38, 255] {
        rows.push(program_row(
            &format!("map-{map}"),
            program_with(&[(6, map)]),
            3,
            6,
        ));
    }
    for (at, map) in [(15, 2), (23, 7), (33, 3), (42, 14), (59, 62), (73, 1)] {
        rows.push(program_row(
            &format!("map-{map}"),
            program_with(&[(at, map)]),
            3,
            at,
        ));
    }
    rows.push(program_row(
        "kind-missing",
        vec![1, 1, 1, 1, 1, 1, 255],
        1,
        7,
    ));
    rows.push(program_row(
        "map-then-end",
        vec![1, 1, 1, 1, 1, 1, 255, 9],
        3,
        6,
    ));
    rows
}

/// Row 3: tokens.
fn tokens() -> Vec<Row> {
    let mut rows = Vec::new();
    for (at, token) in [
        (10, 4),
        (10, 15),
        (10, 21),
        (13, 255),
        (29, 5),
        (38, 32),
        (53, 4),
    ] {
        rows.push(program_row(
            &format!("token-{token}"),
            program_with(&[(at, token)]),
            3,
            at,
        ));
    }
    let sum = 0x10;
    let full = [sum; 15];
    rows.push(program_row("fifteen-then-end", one_assume(&full), 1, 25));
    rows.push(program_row("sixteen-sums", one_assume(&[sum; 16]), 3, 25));
    rows.push(program_row(
        "sixteenth-unknown",
        one_assume(&join(&full, &[99])),
        3,
        25,
    ));
    rows.push(program_row(
        "sixteenth-constant",
        one_assume(&join(&full, &[0])),
        3,
        25,
    ));
    let constants = join(&[sum; 8], &[0; 21]);
    rows.push(program_row(
        "sixteenth-after-constants",
        one_assume(&join(&constants, &[2])),
        3,
        39,
    ));
    let registers = join(&[sum; 8], &[1, 0].repeat(7));
    rows.push(program_row(
        "sixteenth-after-registers",
        one_assume(&join(&registers, &[3])),
        3,
        32,
    ));
    rows.push(program_row("register-token-half", one_assume(&[1]), 1, 11));
    rows.push(program_row("register-token", one_assume(&[1, 1]), 2, 11));
    rows
}

/// A program of one assume with these token bytes; the first token is byte 10.
fn one_assume(tokens: &[u8]) -> Vec<u8> {
    join(&[1, 1, 1, 1, 1, 1, 2, 4, 0, 0], tokens)
}

/// Row 5: the count, and each field of an item outside its range.
fn record_ranges() -> Vec<Row> {
    let outside = [
        (4, 0),
        (4, 3),
        (4, 255),
        (5, 8),
        (5, 255),
        (6, 0),
        (6, 3),
        (13, 0),
        (14, 8),
        (21, 3),
        (22, 2),
        (22, 255),
        (23, 0),
        (30, 3),
        (55, 9),
        (56, 128),
    ];
    let mut rows: Vec<Row> = outside
        .into_iter()
        .map(|(at, byte)| record_row(&format!("byte-{byte}"), record_with(&[(at, byte)]), 5, at))
        .collect();
    for (first, low, high) in [(7, 2, 0), (7, 0, 1), (24, 2, 0), (31, 255, 255)] {
        let what = format!("cell-{high}-{low}");
        rows.push(record_row(
            &what,
            record_with(&[(first, high), (first + 1, low)]),
            5,
            first,
        ));
    }
    rows.push(record_row(
        "count-1025",
        record_with(&[(0, 4), (1, 1)]),
        5,
        0,
    ));
    rows.push(record_row("count-65535", vec![255, 255], 5, 0));
    rows.push(record_row(
        "count-1024",
        record_with(&[(0, 4), (1, 0)]),
        4,
        57,
    ));
    let no_transitions = vec![1, 1, 1, 1, 1, 0];
    rows.push(row(
        "no-transition",
        no_transitions,
        one(&[3, 3, 1, 0]),
        5,
        5,
    ));
    rows
}

/// Row 6: kinds and maps of items.
fn record_forms() -> Vec<Row> {
    let mut rows = Vec::new();
    for kind in [0, 10, 255] {
        rows.push(record_row(
            &format!("kind-{kind}"),
            record_with(&[(3, kind)]),
            6,
            3,
        ));
        let what = format!("kind-{kind}-and-map");
        rows.push(record_row(&what, record_with(&[(2, 0), (3, kind)]), 6, 3));
    }
    for map in [0, 3, 25, 29, 31, 61, 63, 91, 255] {
        rows.push(record_row(
            &format!("map-{map}"),
            record_with(&[(2, map)]),
            6,
            2,
        ));
    }
    for (at, map) in [
        (11, 27),
        (15, 35),
        (19, 27),
        (26, 59),
        (35, 3),
        (42, 21),
        (49, 0),
    ] {
        rows.push(record_row(
            &format!("map-{map}"),
            record_with(&[(at, map)]),
            6,
            at,
        ));
    }
    rows.push(record_row("kind-missing", vec![0, 1, 255], 4, 3));
    rows.push(record_row("map-then-end", vec![0, 1, 255, 1], 6, 2));
    rows
}

/// Faults side by side: program before record, record before replay, 14 before 15.
fn precedence() -> Vec<Row> {
    let bad_end = record_with(&[(10, 1), (53, 255)]);
    let sound = |number, place| record_row("sound", BASE_RECORD.to_vec(), number, place);
    let first_items = record_of(4, &BASE_RECORD[2..26]);
    vec![
        row(
            "program-first",
            join(&BASE_PROGRAM, &[0]),
            Vec::new(),
            1,
            81,
        ),
        row("both-empty", Vec::new(), Vec::new(), 1, 0),
        record_row("record-before-replay", bad_end, 6, 53),
        record_row("left", first_items, 13, 4).with_lists(0, 0),
        sound(14, 4).with_lists(3, 4),
        sound(14, 4).with_lists(0, 0),
        sound(15, 4).with_lists(4, 3),
        sound(15, 4).with_lists(40, 0),
    ]
}
