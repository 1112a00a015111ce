//! The table's rows of the replay, 7 to 13 and #102's 18, worked out by hand on the base program.

use super::base::{one, program_with, record_with, several, BASE_PROGRAM, BASE_RECORD};
use super::row::Row;
use super::table::row;

/// Items of the base program that the rows are put together from.
mod items {
    /// Store of rank 1.
    pub const STORE: &[u8] = &[27, 2, 1, 0, 1, 0, 0];
    /// Load of rank 1 from its cell 1.
    pub const LOAD: &[u8] = &[27, 1, 1, 1, 1, 0, 1];
    /// Load of rank 1 that gives value 1, where the cell holds 0.
    pub const LOAD_OF_1: &[u8] = &[59, 1, 1, 1, 1, 0, 1, 0, 1];
    /// Assign of rank 1: its register 0 becomes 3.
    pub const ASSIGN: &[u8] = &[3, 3, 1, 2];
    /// Assume of rank 1, which passes.
    pub const ASSUME_1: &[u8] = &[3, 4, 1, 3];
    /// Assume of rank 2, which gives 0.
    pub const ASSUME_2: &[u8] = &[3, 4, 2, 3];
    /// Write of rank 1 on queue 0.
    pub const WRITE: &[u8] = &[3, 6, 1, 4];
    /// Its popa.
    pub const POPA: &[u8] = &[29, 7, 1, 0, 1, 0, 0];
    /// Its popa with a value that is not there.
    pub const POPA_OF_9: &[u8] = &[61, 7, 1, 0, 1, 0, 0, 0, 9];
    /// Its popb.
    pub const POPB: &[u8] = &[29, 8, 1, 0, 2, 0, 1];
    /// First bar of rank 1.
    pub const BAR_1: &[u8] = &[3, 9, 1, 6];
    /// First bar of rank 2.
    pub const BAR_2: &[u8] = &[3, 9, 2, 6];
    /// Second bar of rank 1, from state 1.
    pub const SECOND_BAR_1: &[u8] = &[3, 9, 1, 7];
}

use items::*;

/// A row of the base program with this record.
fn record_row(what: &str, record: Vec<u8>, number: u8, place: usize) -> Row {
    row(what, BASE_PROGRAM.to_vec(), record, number, place)
}

/// All rows of the replay.
pub fn rows() -> Vec<Row> {
    let parts = [
        transitions(),
        evaluated(),
        assumes(),
        pops(),
        places(),
        barriers(),
        ends(),
    ];
    parts.into_iter().flatten().collect()
}

/// Row 7.
fn transitions() -> Vec<Row> {
    vec![
        record_row("other-state", record_with(&[(52, 7)]), 7, 7),
        record_row("other-state-of-rank-2", record_with(&[(56, 7)]), 7, 8),
        record_row("other-transition", record_with(&[(14, 5)]), 7, 1),
        record_row("other-kind", record_with(&[(12, 5)]), 7, 1),
        record_row("load-said-store", one(&[27, 2, 1, 1, 1, 0, 1]), 7, 0),
        record_row("bar-said-assume", one(&[3, 4, 1, 6]), 7, 0),
        record_row("bar-of-a-store", one(&[3, 9, 1, 0]), 7, 0),
        record_row("left-state", several(&[BAR_1, BAR_2, STORE]), 7, 2),
    ]
}

/// Row 8: own cell, remote rank, remote cell, queue.
fn evaluated() -> Vec<Row> {
    let numbered = |number, what, changes: &[(usize, u8)], place| {
        let program = program_with(changes);
        row(what, program, BASE_RECORD.to_vec(), number, place)
    };
    let with = |what, changes: &[(usize, u8)], place| numbered(8, what, changes, place);
    let load_of_2 = program_with(&[(22, 2)]);
    vec![
        with("store-cell", &[(12, 2)], 0),
        with("store-cell-65535", &[(11, 255), (12, 255)], 0),
        row("load-cell", load_of_2.clone(), one(LOAD), 8, 0),
        row("load-cell-before-11", load_of_2, one(LOAD_OF_1), 8, 0),
        with("write-own-cell", &[(48, 2)], 1),
        with("write-rank-0", &[(52, 1)], 1),
        with("write-rank-3", &[(52, 4)], 1),
        // with #102 the remote rank, 0 − 1, has no value
        numbered(18, "write-rank-wrapped", &[(52, 0)], 1),
        with("write-remote-cell", &[(56, 2)], 1),
        with("read-own-cell", &[(65, 2)], 2),
        with("read-remote-cell", &[(68, 1)], 2),
        with("read-queue", &[(72, 2)], 2),
        record_row("write-queue-of-register", several(&[ASSIGN, WRITE]), 8, 1),
    ]
}

/// Row 9.
fn assumes() -> Vec<Row> {
    vec![
        record_row("assume", one(ASSUME_2), 9, 0),
        record_row(
            "assume-after-one-that-passes",
            several(&[ASSUME_1, ASSUME_2]),
            9,
            1,
        ),
        record_row(
            "assume-while-queued",
            several(&[WRITE, STORE, ASSUME_2]),
            9,
            2,
        ),
    ]
}

/// Row 10, which comes before 11.
fn pops() -> Vec<Row> {
    vec![
        record_row("popa-other-queue", record_with(&[(22, 1)]), 10, 3),
        record_row("popb-other-queue", record_with(&[(29, 1)]), 10, 4),
        record_row("popb-before-popa", several(&[WRITE, POPB]), 10, 1),
        record_row("popa-twice", several(&[WRITE, POPA, POPA]), 10, 2),
        record_row("popb-twice", several(&[WRITE, POPA, POPB, POPB]), 10, 3),
        record_row("popa-elsewhere", one(&[61, 7, 2, 1, 1, 0, 1, 0, 9]), 10, 0),
    ]
}

/// Row 11: place and given value of each kind that has them.
fn places() -> Vec<Row> {
    let changes = [
        ("store-place-rank", (6, 2), 0),
        ("store-place-cell", (8, 1), 0),
        ("store-value", (10, 1), 0),
        ("popa-place-rank", (23, 2), 3),
        ("popa-place-cell", (25, 1), 3),
        ("popb-place-rank", (30, 1), 4),
        ("popb-place-cell", (32, 0), 4),
        ("popb-value", (33, 1), 4),
        ("late-popb-place", (48, 0), 6),
    ];
    let mut rows: Vec<Row> = changes
        .into_iter()
        .map(|(what, change, place)| record_row(what, record_with(&[change]), 11, place))
        .collect();
    rows.push(record_row(
        "load-value",
        several(&[STORE, LOAD_OF_1]),
        11,
        1,
    ));
    rows.push(record_row(
        "load-place",
        one(&[27, 1, 1, 1, 2, 0, 1]),
        11,
        0,
    ));
    rows.push(record_row(
        "popa-value",
        several(&[WRITE, POPA_OF_9]),
        11,
        1,
    ));
    rows
}

/// Row 12, which comes before 7 and 10; an open row at the end comes before 13.
fn barriers() -> Vec<Row> {
    vec![
        record_row("bar-2-first", one(BAR_2), 12, 0),
        record_row("bar-2-first-before-7", one(&[3, 9, 2, 0]), 12, 0),
        record_row("bar-1-twice", record_with(&[(55, 1)]), 12, 8),
        record_row("bar-2-for-1", record_with(&[(51, 2)]), 12, 7),
        record_row("bar-1-again", several(&[BAR_1, SECOND_BAR_1]), 12, 1),
        record_row("command-in-row", several(&[BAR_1, STORE]), 12, 1),
        record_row(
            "other-rank-in-row",
            several(&[BAR_1, ASSUME_2, BAR_2]),
            12,
            1,
        ),
        record_row("popa-in-row", several(&[BAR_1, POPA]), 12, 1),
        record_row(
            "popb-in-row",
            several(&[WRITE, POPA, BAR_1, POPB, BAR_2]),
            12,
            3,
        ),
        record_row("row-open-at-end", one(BAR_1), 12, 1),
        record_row("row-open-before-13", several(&[WRITE, BAR_1]), 12, 2),
    ]
}

/// Row 13: requests or deliveries left.
fn ends() -> Vec<Row> {
    vec![
        record_row("request-left", several(&[STORE, WRITE]), 13, 2),
        record_row("delivery-left", several(&[WRITE, POPA]), 13, 2),
        record_row("both-left", several(&[WRITE, WRITE, POPA]), 13, 3),
        record_row("left-after-row", several(&[WRITE, BAR_1, BAR_2]), 13, 3),
    ]
}
