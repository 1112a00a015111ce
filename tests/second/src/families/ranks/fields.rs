//! A rank in an item, and the rank of its place, outside 1 to N: 5 at that byte, for each kind of
//! item. Items that are inside stand among the runs.

use super::{machine, refused_bytes, SIZES};
use crate::families::base::{one, several};
use crate::families::parts::{assign, assume, bar, load, read, store, write};
use crate::families::row::Row;

/// An item's bytes with this rank, and this rank of its place if it has one.
type Form = fn(u8, u8) -> Vec<u8>;

/// Each kind of item, with what it is called. The transitions are those of `program`.
const FORMS: [(&str, Form); 12] = [
    ("load", |rank, owner| vec![27, 1, rank, 0, owner, 0, 0]),
    ("load-with-value", |rank, owner| {
        vec![59, 1, rank, 0, owner, 0, 0, 0, 0]
    }),
    ("store", |rank, owner| vec![27, 2, rank, 1, owner, 0, 0]),
    ("store-with-value", |rank, owner| {
        vec![59, 2, rank, 1, owner, 0, 0, 0, 1]
    }),
    ("assign", |rank, _| vec![3, 3, rank, 2]),
    ("assume", |rank, _| vec![3, 4, rank, 3]),
    ("read", |rank, _| vec![3, 5, rank, 4]),
    ("write", |rank, _| vec![3, 6, rank, 5]),
    ("popa", |rank, owner| vec![29, 7, rank, 0, owner, 0, 0]),
    ("popa-with-value", |rank, owner| {
        vec![61, 7, rank, 0, owner, 0, 0, 0, 0]
    }),
    ("popb", |rank, owner| vec![29, 8, rank, 0, owner, 0, 0]),
    ("bar", |rank, _| vec![3, 9, rank, 6]),
];

/// The place of the first item's rank in a record.
const RANK: usize = 4;
/// The place of the first item's place rank in a record.
const OWNER: usize = 6;

/// A program of so many ranks with a transition of each kind, in the order of the kinds.
fn program(ranks: usize) -> Vec<u8> {
    let transitions = [
        load(0),
        store(0, 1),
        assign(1),
        assume(1),
        read(0, 1, 0),
        write(0, 1, 0),
        bar(),
    ];
    machine(ranks, &transitions).to_bytes()
}

/// All rows about the ranks of items.
pub fn rows() -> Vec<Row> {
    let mut rows = Vec::new();
    for ranks in SIZES {
        for (name, form) in FORMS {
            rows.extend(one_beyond(ranks, name, form));
        }
        rows.extend(far_beyond(ranks));
    }
    rows.extend(first_faults());
    rows
}

/// A refused row of one item.
fn row(what: &str, ranks: usize, item: &[u8], place: usize) -> Row {
    let inputs = [program(ranks), one(item)];
    refused_bytes(&format!("{what}-of-{ranks}"), inputs, 5, place)
}

/// A form of item with rank N + 1, and with it as the rank of its place, if it has one.
fn one_beyond(ranks: usize, name: &str, form: Form) -> Vec<Row> {
    let next = ranks as u8 + 1;
    let rank = format!("{name}-rank-{next}");
    let mut rows = vec![row(&rank, ranks, &form(next, 1), RANK)];
    if form(1, 1) != form(1, 2) {
        let owner = format!("{name}-place-rank-{next}");
        rows.push(row(&owner, ranks, &form(1, next), OWNER));
    }
    rows
}

/// Ranks and place ranks of 0 and far above N.
fn far_beyond(ranks: usize) -> Vec<Row> {
    let mut rows = Vec::new();
    for other in [0, 24, 32, 128 + ranks as u8, 255] {
        let store = [27, 2, other, 1, 1, 0, 0];
        rows.push(row(&format!("store-rank-{other}"), ranks, &store, RANK));
        let place = [27, 2, 1, 1, other, 0, 0];
        let what = format!("store-place-rank-{other}");
        rows.push(row(&what, ranks, &place, OWNER));
    }
    rows
}

/// Several faults, and faults behind an item of rank N.
fn first_faults() -> Vec<Row> {
    let of = |what: &str, ranks: usize, items: &[&[u8]], refusal: (u8, usize)| {
        let inputs = [program(ranks), several(items)];
        refused_bytes(&format!("{what}-of-{ranks}"), inputs, refusal.0, refusal.1)
    };
    let mut rows = Vec::new();
    for ranks in [9, 16] {
        let (last, next) = (ranks as u8, ranks as u8 + 1);
        let sound: &[u8] = &[3, 3, last, 2];
        let after = |what: &str, item: &[u8], refusal| of(what, ranks, &[sound, item], refusal);
        rows.extend([
            after("second-rank", &[3, 3, next, 2], (5, 8)),
            after("second-place-rank", &[27, 2, last, 1, next, 0, 0], (5, 10)),
            after("rank-before-transition", &[3, 3, next, 7], (5, 8)),
            after("transition-behind-rank", &[3, 3, last, 7], (5, 9)),
            after("rank-before-end", &[27, 2, next], (5, 8)),
            after("end-behind-rank", &[27, 2, last], (4, 9)),
            after("end-before-place-rank", &[27, 2, last, 1], (4, 10)),
            after("end-behind-place-rank", &[27, 2, last, 1, last], (4, 11)),
            after(
                "cell-behind-place-rank",
                &[27, 2, last, 1, last, 0, 2],
                (5, 11),
            ),
            after("rank-before-high-byte", &[131, 3, next, 2, 0], (5, 8)),
            after("high-byte-behind-rank", &[131, 3, last, 2, 1], (5, 10)),
            after("map-before-rank", &[35, 3, next, 2], (6, 6)),
        ]);
    }
    rows
}
