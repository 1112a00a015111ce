//! The remote rank in a pop's bytes: outside 1 to N, missing, too many, and beside other faults.

use super::{machine, refused_bytes};
use crate::families::base::{one, several};
use crate::families::parts::{assign, write};
use crate::families::row::Row;

/// The place of the remote rank in a record of one pop without a value: behind the count, map, kind,
/// rank, queue, and the place of three bytes.
const WITHOUT_VALUE: usize = 9;
/// The same with a value.
const WITH_VALUE: usize = 11;

/// A pop with a name: what it is called, its bytes before the remote rank, and the place of that
/// byte in a record of this item alone.
type Form = (&'static str, &'static [u8], usize);

/// Each form of pop with a name, of rank 1 and queue 0, at its cell 0.
const FORMS: [Form; 4] = [
    ("popa", &[93, 7, 1, 0, 1, 0, 0], WITHOUT_VALUE),
    (
        "popa-with-value",
        &[125, 7, 1, 0, 1, 0, 0, 0, 2],
        WITH_VALUE,
    ),
    ("popb", &[93, 8, 1, 0, 1, 0, 0], WITHOUT_VALUE),
    (
        "popb-with-value",
        &[125, 8, 1, 0, 1, 0, 0, 0, 2],
        WITH_VALUE,
    ),
];

/// A program of so many ranks with a write to the own rank and an assign.
fn program(ranks: usize) -> Vec<u8> {
    machine(ranks, &[write(0, 1, 1), assign(1)]).to_bytes()
}

/// All rows about the remote rank's byte.
pub fn rows() -> Vec<Row> {
    let mut rows = Vec::new();
    for form in FORMS {
        for ranks in [1, 2, 3, 16] {
            rows.extend(outside(form, ranks));
        }
        rows.extend(lengths(form));
    }
    rows.extend(cut());
    rows.extend(faults_before());
    rows.extend(faults_behind());
    rows.extend(bytes_shifted());
    rows
}

/// The bytes with more behind them.
fn then(bytes: &[u8], more: &[u8]) -> Vec<u8> {
    [bytes, more].concat()
}

/// A refused row of item bytes beside a program of so many ranks.
fn row(what: &str, ranks: usize, items: &[&[u8]], refusal: (u8, usize)) -> Row {
    let inputs = [program(ranks), several(items)];
    refused_bytes(&format!("{what}-of-{ranks}"), inputs, refusal.0, refusal.1)
}

/// 0, N + 1 and far above N: 5 at the byte, although nothing waits, which would be 10.
fn outside((name, bytes, place): Form, ranks: usize) -> Vec<Row> {
    let last = ranks as u8;
    [0, last + 1, 128 + last, 255]
        .into_iter()
        .map(|remote| {
            let what = format!("{name}-remote-{remote}");
            row(&what, ranks, &[&then(bytes, &[remote])], (5, place))
        })
        .collect()
}

/// The byte missing, one byte too many with the name, and one where no name is said to be.
fn lengths((name, bytes, place): Form) -> Vec<Row> {
    let mut plain = bytes.to_vec();
    plain[0] -= 64;
    let of = |what: &str, item: &[u8], refusal| row(&format!("{name}-{what}"), 3, &[item], refusal);
    vec![
        of("remote-missing", bytes, (4, place)),
        of("byte-too-many", &then(bytes, &[2, 2]), (4, place + 1)),
        of("byte-without-bit", &then(&plain, &[2]), (4, place)),
        // the field is judged before what is left over
        of(
            "remote-0-and-byte-too-many",
            &then(bytes, &[0, 2]),
            (5, place),
        ),
    ]
}

/// A named popa with value that ends before each of its bytes: 4 at the length.
fn cut() -> Vec<Row> {
    let whole = then(FORMS[1].1, &[1]);
    let of = |length: usize| {
        let inputs = [program(3), one(&whole[..length])];
        refused_bytes("cut", inputs, 4, 2 + length)
    };
    (0..whole.len()).map(of).collect()
}

/// Other fields of the item outside their range before a remote rank that is, too: the first is
/// told. N is 3, Q 2, A 8.
fn faults_before() -> Vec<Row> {
    let mut rows = Vec::new();
    for (name, bytes, _) in FORMS {
        for (what, at, byte, place) in [
            ("rank-0", 2, 0, 4),
            ("rank-4", 2, 4, 4),
            ("queue-2", 3, 2, 5),
            ("place-rank-0", 4, 0, 6),
            ("place-rank-4", 4, 4, 6),
            ("cell-8", 6, 8, 7),
            ("cell-256", 5, 1, 7),
        ] {
            let mut item = then(bytes, &[0]);
            item[at] = byte;
            let what = format!("{name}-{what}-before-remote-0");
            rows.push(row(&what, 3, &[&item], (5, place)));
        }
    }
    rows
}

/// A remote rank outside its range before faults of later items and of the replay.
fn faults_behind() -> Vec<Row> {
    let bad = &then(FORMS[0].1, &[4])[..];
    let good = &then(FORMS[0].1, &[2])[..];
    let of = |what: &str, items: &[&[u8]], refusal| row(what, 3, items, refusal);
    let left_over = [program(3), vec![0]].concat();
    vec![
        of("remote-4-before-kind-0", &[bad, &[3, 0]], (5, 9)),
        of("remote-4-before-wrong-map", &[bad, &[64, 3]], (5, 9)),
        of("kind-0-behind-remote", &[good, &[93, 0]], (6, 11)),
        of("second-remote-4", &[good, bad], (5, 17)),
        // the first item is a pop of an empty queue, but the record is read first
        of(
            "remote-4-before-replay",
            &[&[29, 7, 1, 0, 1, 0, 0], bad],
            (5, 16),
        ),
        of("remote-missing-before-replay", &[good, FORMS[2].1], (4, 17)),
        refused_bytes(
            "program-before-remote-4",
            [left_over, one(bad)],
            1,
            program(3).len(),
        ),
    ]
}

/// A byte too few or too many with an item behind, so that the bytes are read as others.
fn bytes_shifted() -> Vec<Row> {
    let nameless = FORMS[0].1;
    let assigned: &[u8] = &[3, 3, 1, 1];
    let plain: &[u8] = &[29, 7, 1, 0, 1, 0, 0];
    let longer = &then(plain, &[2])[..];
    let of = |what: &str, items: &[&[u8]], refusal| row(what, 3, items, refusal);
    vec![
        // the next item's map is read as the remote rank: 29 is too high, and 3 is rank 3, behind
        // which 3, 1 is map 3 of a load
        of("next-map-29-as-remote", &[nameless, plain], (5, 9)),
        of("next-map-3-as-remote", &[nameless, assigned], (6, 10)),
        of("next-map-93-as-remote", &[nameless, nameless], (5, 9)),
        // the byte behind is read as a map, 2, of kind 3, or of kind 29
        of("remote-as-next-map", &[longer, assigned], (6, 9)),
        of("remote-as-next-map-of-29", &[longer, plain], (6, 10)),
    ]
}
