//! Other answers beside a ring, listings, and readings at the start.

use super::{accepted, FAMILY};
use crate::corpus::Expected;
use crate::families::row::Row;
use crate::families::script::Script;
use crate::record::record_bytes;

/// All rows.
pub fn rows() -> Vec<Row> {
    let parts = [lists(), listings(), readings()];
    parts.into_iter().flatten().collect()
}

/// The refused row of a record.
fn refused(what: &str, script: &Script, number: u8, place: usize) -> Row {
    let inputs = [script.program.to_bytes(), record_bytes(&script.items)];
    Row::refused(FAMILY, what, inputs, number, place)
}

/// A ring of two in a record of five groups, with lists of other lengths: 14 goes by the groups and
/// not by the ring, and 15 comes after it.
fn lists() -> Vec<Row> {
    let script = Script::of("k1*3 k1*2");
    let ring = accepted("lists", &script, Expected::Ring(vec![3, 4]), &[]);
    let short = |number, place, order, cells| {
        refused("lists", &script, number, place).with_lists(order, cells)
    };
    vec![
        short(14, 5, 0, 2),
        short(14, 5, 1, 2),
        short(14, 5, 2, 2),
        short(14, 5, 4, 0),
        short(15, 2, 5, 1),
        ring.clone().with_lists(5, 2),
        ring,
    ]
}

/// Listings: a fan, with rank and first item of each group; and a knot that stores 7, which its
/// write carries on.
fn listings() -> Vec<Row> {
    let fan = Script::of("w1.0>2.1 b i4 r4.2<2.1 n r3.2<2.1 n c");
    let of_fan = "ring 3\ngroup 0 write 1 0\ngroup 1 bar 0 1\ngroup 4 read 3 9\n";
    let stored = Script::of("k1*3 w1.0>1.1 s1.0=7 c");
    let of_stored = "ring 2\ngroup 3 write 1 5\ngroup 4 store 1 6\ncell 1 0 7\ncell 1 1 7\n";
    let last = [((1, 0), 7), ((1, 1), 7)];
    vec![
        accepted("listed-fan", &fan, Expected::Ring(vec![0, 1, 4]), &[])
            .with_slip(vec![15, 0, 2, 0, 1, 0, 2, 0, 3])
            .with_listing(of_fan.into()),
        accepted("listed-store", &stored, Expected::Ring(vec![3, 4]), &last)
            .with_slip(vec![1, 0, 5])
            .with_listing(of_stored.into()),
    ]
}

/// Rank 2 loads cell 2, group 0, assumes that what it loaded is not 0, and has a knot of three and
/// one of two. From readings of 7 and 9 in the cells 2 that is accepted; from no bytes the assume is
/// 0. Without the assume the ring is the same from the zero start, written out.
fn readings() -> Vec<Row> {
    let read = Script::of("l2.2=9 a2 k2*3 k2*2");
    let unread = Script::of("l2.2=0 a2 k2*3 k2*2");
    let zero = Script::of("l2.2=0 k2*3 k2*2");
    let of_rank = |value| [0, 0, 0, 0, 0, 0, 0, 4, 0, value];
    let last = [((1, 2), 7), ((2, 2), 9)];
    let text = "ring 2\ngroup 5 write 2 7\ngroup 6 store 2 8\ncell 1 2 7\ncell 2 2 9\n";
    vec![
        accepted("from-readings", &read, Expected::Ring(vec![5, 6]), &last)
            .from_start([of_rank(7), of_rank(9)].concat())
            .with_listing(text.into()),
        refused("from-no-bytes", &unread, 9, 1),
        accepted("from-zero-start", &zero, Expected::Ring(vec![4, 5]), &[]).from_start(vec![0; 16]),
    ]
}
