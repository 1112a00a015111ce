//! 19 beside other faults: after those of the program, and before those of the record, of the
//! replay and of the lists.

use super::build::{rank_bytes, start};
use super::refused_bytes;
use crate::families::base::{join, one, program_with, record_with, BASE_PROGRAM, BASE_RECORD};
use crate::families::row::Row;

/// All rows. The base program has two ranks of two cells.
pub fn rows() -> Vec<Row> {
    let mut rows = Vec::new();
    let faults = [
        ("bad-bit", rank_bytes(&[(2, 1)]), 0),
        ("listed-0", start(&[&[(1, 0)], &[]]), 8),
        ("cut", vec![0; 15], 15),
        ("one-byte", vec![0], 1),
        ("left-over", vec![0; 17], 16),
    ];
    for (what, start, place) in faults {
        rows.extend(after_the_program(what, &start));
        rows.extend(before_the_record(what, &start, place));
        rows.extend(before_the_lists(what, &start, place));
    }
    rows.extend(good_starts());
    rows
}

/// The program's own faults are told.
fn after_the_program(what: &str, start: &[u8]) -> Vec<Row> {
    let row = |of: &str, program: Vec<u8>, number, place| {
        let inputs = [program, start.to_vec(), BASE_RECORD.to_vec()];
        refused_bytes(&format!("{of}-before-{what}"), inputs, number, place)
    };
    let cut = BASE_PROGRAM[..80].to_vec();
    vec![
        row("no-program", Vec::new(), 1, 0),
        row("program-cut", cut, 1, 80),
        row("program-left-over", join(&BASE_PROGRAM, &[0]), 1, 81),
        row("no-cells", program_with(&[(1, 0)]), 2, 1),
        row("state", program_with(&[(80, 3)]), 2, 80),
        row("kind", program_with(&[(78, 7)]), 3, 78),
    ]
}

/// 19 is told, whatever stands in the record.
fn before_the_record(what: &str, start: &[u8], place: usize) -> Vec<Row> {
    let row = |of: &str, record: Vec<u8>| {
        let inputs = [BASE_PROGRAM.to_vec(), start.to_vec(), record];
        refused_bytes(&format!("{what}-before-{of}"), inputs, 19, place)
    };
    vec![
        row("no-record", Vec::new()),
        row("record-cut", BASE_RECORD[..56].to_vec()),
        row("record-left-over", join(&BASE_RECORD, &[0])),
        row("item-count", vec![4, 1]),
        row("rank", record_with(&[(4, 3)])),
        row("map", record_with(&[(2, 58)])),
        row("7", one(&[3, 9, 1, 7])),
        row("9", one(&[3, 4, 2, 3])),
        row("10", one(&[29, 7, 1, 0, 1, 0, 0])),
        row("11", record_with(&[(10, 1)])),
        row("12", one(&[3, 9, 2, 6])),
        row("13", one(&[3, 6, 1, 4])),
        row("an-order", BASE_RECORD.to_vec()),
        row("no-items", vec![0, 0]),
    ]
}

/// 19 is told, whatever the lists' lengths.
fn before_the_lists(what: &str, start: &[u8], place: usize) -> Vec<Row> {
    let row = |order, cells| {
        let inputs = [BASE_PROGRAM.to_vec(), start.to_vec(), BASE_RECORD.to_vec()];
        let row = refused_bytes(&format!("{what}-before-lists"), inputs, 19, place);
        row.with_lists(order, cells)
    };
    vec![row(3, 4), row(4, 3), row(0, 0)]
}

/// With a good start the record's faults are told, at the record's own places.
fn good_starts() -> Vec<Row> {
    let readings = start(&[&[(0, 5)], &[(1, 6)]]);
    let row = |what: &str, record: Vec<u8>, number, place| {
        let inputs = [BASE_PROGRAM.to_vec(), readings.clone(), record];
        refused_bytes(&format!("good-start-{what}"), inputs, number, place)
    };
    vec![
        row("no-record", Vec::new(), 4, 0),
        row("record-cut", BASE_RECORD[..56].to_vec(), 4, 56),
        row("record-left-over", join(&BASE_RECORD, &[0]), 4, 57),
        row("item-count", vec![4, 1], 5, 0),
        row("rank", record_with(&[(4, 3)]), 5, 4),
        row("map", record_with(&[(2, 58)]), 6, 2),
        row("9", one(&[3, 4, 2, 3]), 9, 0),
        row("10", one(&[29, 7, 1, 0, 1, 0, 0]), 10, 0),
        row("12", one(&[3, 9, 2, 6]), 12, 0),
    ]
}
