//! The count in the header: both its forms, each number outside its range, each missing byte, and
//! what follows it. The transitions are idle ones of four bytes, so that number n of a program with
//! a long count begins at byte 8 + 4n.

use super::build::{assign, idle, sparse, IDLE_BYTES};
use super::refused_bytes;
use crate::families::base::join;
use crate::families::row::Row;
use crate::program::{count_bytes, long_count_bytes};

/// A record of no items.
const NO_ITEMS: [u8; 2] = [0, 0];

/// All rows about the count and what follows it.
pub fn rows() -> Vec<Row> {
    let parts = [
        short_counts(),
        long_counts(),
        missing_bytes(),
        left_over(),
        cut_transitions(),
        bad_transitions(),
        first_faults(),
    ];
    parts.into_iter().flatten().collect()
}

/// A refused row of a program, with a record of no items.
fn row(what: &str, program: Vec<u8>, number: u8, place: usize) -> Row {
    refused_bytes(what, [program, NO_ITEMS.to_vec()], number, place)
}

/// A program with this count, however it is written, and so many idle transitions.
fn program(count: &[u8], transitions: usize) -> Vec<u8> {
    let numbers = &sparse(0, &[]).header()[..5];
    [numbers, count, &idles(transitions)].concat()
}

/// The bytes of so many idle transitions.
fn idles(count: usize) -> Vec<u8> {
    let mut bytes = Vec::new();
    idle().write(&mut bytes);
    bytes.repeat(count)
}

/// Where a transition of a program with a long count begins.
fn place_of(number: usize) -> usize {
    8 + IDLE_BYTES * number
}

/// A count byte from 129 to 254, alone or with as many transitions.
fn short_counts() -> Vec<Row> {
    let mut rows = Vec::new();
    for count in [129, 200, 254] {
        let alone = format!("count-byte-{count}-alone");
        rows.push(row(&alone, program(&[count], 0), 2, 5));
        let whole = format!("count-byte-{count}-and-transitions");
        rows.push(row(&whole, program(&[count], count.into()), 2, 5));
    }
    let as_long = program(&[254, 1, 4], 1);
    rows.push(row("count-byte-254-as-if-long", as_long, 2, 5));
    rows
}

/// A two-byte count outside 129..400, alone or with as many transitions.
fn long_counts() -> Vec<Row> {
    let mut rows = Vec::new();
    for count in [0, 1, 2, 127, 128, 401, 402, 512, 655, 65535] {
        let alone = program(&long_count_bytes(count), 0);
        rows.push(row(&format!("two-byte-count-{count}-alone"), alone, 2, 6));
    }
    for count in [0, 1, 128, 401] {
        let whole = program(&long_count_bytes(count), count.into());
        let what = format!("two-byte-count-{count}-and-transitions");
        rows.push(row(&what, whole, 2, 6));
    }
    rows
}

/// Each byte of the count missing, and the first transition.
fn missing_bytes() -> Vec<Row> {
    let short = |count: &[u8]| program(count, 0);
    vec![
        row("no-count", short(&[]), 1, 5),
        row("no-two-byte-count", short(&[255]), 1, 6),
        row("half-a-count-of-0", short(&[255, 0]), 1, 7),
        row("half-a-count-of-1", short(&[255, 1]), 1, 7),
        row("half-a-count-of-255", short(&[255, 255]), 1, 7),
        row("count-129-alone", short(&count_bytes(129)), 1, 8),
        row("count-256-alone", short(&count_bytes(256)), 1, 8),
        row("count-400-alone", short(&count_bytes(400)), 1, 8),
        row("count-128-alone", short(&count_bytes(128)), 1, 6),
    ]
}

/// Bytes after the last transition.
fn left_over() -> Vec<Row> {
    let of = |what: &str, count: usize, transitions: usize, more: &[u8], place| {
        let whole = join(&program(&count_bytes(count), transitions), more);
        row(&format!("{what}-after-{count}"), whole, 1, place)
    };
    vec![
        of("one-left", 128, 128, &[0], 6 + 4 * 128),
        of("one-left", 129, 129, &[0], 8 + 4 * 129),
        of("one-left", 256, 256, &[1], 8 + 4 * 256),
        of("one-left", 257, 257, &[255], 8 + 4 * 257),
        of("one-left", 400, 400, &[0], 8 + 4 * 400),
        of("transition-left", 128, 129, &[], 6 + 4 * 128),
        of("transition-left", 129, 130, &[], 8 + 4 * 129),
        of("transition-left", 256, 257, &[], 8 + 4 * 256),
        of("transition-left", 399, 400, &[], 8 + 4 * 399),
        of("transition-left", 400, 401, &[], 8 + 4 * 400),
    ]
}

/// Programs that end in their transitions, or between them.
fn cut_transitions() -> Vec<Row> {
    let mut rows = Vec::new();
    let lengths = [
        (400, 9),
        (400, 10),
        (400, place_of(1)),
        (400, place_of(128)),
        (400, place_of(255) + 1),
        (400, place_of(256)),
        (400, place_of(256) + 1),
        (400, place_of(399)),
        (400, place_of(400) - 1),
        (129, place_of(128)),
        (129, place_of(129) - 1),
        (256, place_of(256) - 1),
        (257, place_of(256)),
        (257, place_of(257) - 1),
    ];
    for (count, length) in lengths {
        let whole = program(&count_bytes(count), count);
        let what = format!("cut-of-{count}");
        rows.push(row(&what, whole[..length].to_vec(), 1, length));
    }
    rows
}

/// Bad transitions far in: each kind of fault, with the rest of the program behind it.
fn bad_transitions() -> Vec<Row> {
    let mut rows = Vec::new();
    let changed = |number: usize, byte: usize, to: u8| {
        let size = if number < 258 { 259 } else { 400 };
        let mut bytes = program(&count_bytes(size), size);
        bytes[place_of(number) + byte] = to;
        bytes
    };
    // The bytes of an idle transition: map 0, kind 9, from 1, to 1; S is 2.
    for (what, number, byte, to, refusal) in [
        ("kind-0", 128, 1, 0, 3),
        ("kind-7", 255, 1, 7, 3),
        ("kind-10", 256, 1, 10, 3),
        ("kind-255", 399, 1, 255, 3),
        ("map-1", 129, 0, 1, 3),
        ("map-128", 256, 0, 128, 3),
        ("map-131", 399, 0, 131, 3),
        ("from-2", 255, 2, 2, 2),
        ("from-255", 257, 2, 255, 2),
        ("to-2", 256, 3, 2, 2),
        ("to-64", 399, 3, 64, 2),
    ] {
        let what = format!("transition-{number}-{what}");
        let place = place_of(number) + byte;
        rows.push(row(&what, changed(number, byte, to), refusal, place));
    }
    rows.extend([bad_register(), bad_token(), sixteenth_token()]);
    rows
}

/// A program of 260 transitions whose number 257 has these bytes instead.
fn with_257(bytes: &[u8]) -> Vec<u8> {
    let before = program(&count_bytes(260), 257);
    [&before[..], bytes, &idles(2)].concat()
}

/// An assign to register 1 of one, transition 257: the register is its fifth byte.
fn bad_register() -> Row {
    let mut bytes = Vec::new();
    assign(5).write(&mut bytes);
    bytes[4] = 1;
    let place = place_of(257) + 4;
    row("transition-257-register-1", with_257(&bytes), 2, place)
}

/// An assume of an unknown token, transition 257: the token is its fifth byte.
fn bad_token() -> Row {
    let place = place_of(257) + 4;
    let bytes = with_257(&[2, 4, 0, 0, 4]);
    row("transition-257-token-4", bytes, 3, place)
}

/// An assume of sixteen sums, transition 257: the sixteenth is its twentieth byte.
fn sixteenth_token() -> Row {
    let bytes = with_257(&join(&[2, 4, 0, 0], &[0x10; 16]));
    let place = place_of(257) + 4 + 15;
    row("transition-257-sixteenth-token", bytes, 3, place)
}

/// Several faults: the first in the program's bytes is told.
fn first_faults() -> Vec<Row> {
    let mut no_states = program(&long_count_bytes(401), 0);
    no_states[4] = 0;
    let mut two_bad = program(&count_bytes(400), 400);
    two_bad[place_of(300) + 1] = 0;
    let cut_after_bad = two_bad[..place_of(399)].to_vec();
    two_bad[place_of(299) + 2] = 2;
    let mut bad_and_count = program(&long_count_bytes(128), 128);
    bad_and_count[place_of(0) + 1] = 0;
    let bad_record = [program(&long_count_bytes(401), 0), vec![255, 255]];
    vec![
        row("states-before-count", no_states, 2, 4),
        row("state-before-kind", two_bad, 2, place_of(299) + 2),
        row("kind-before-end", cut_after_bad, 3, place_of(300) + 1),
        row("count-before-kind", bad_and_count, 2, 6),
        refused_bytes("count-before-record", bad_record, 2, 6),
    ]
}
