//! Map bit 6 where it may stand and where it may not: with kinds that are no pops, with bit 7, and
//! with a bit too few or too many.

use super::{machine, refused_bytes};
use crate::families::base::{one, several};
use crate::families::parts::assign;
use crate::families::row::Row;

/// All rows about maps with bit 6.
pub fn rows() -> Vec<Row> {
    let mut rows = commands();
    rows.extend(pops());
    rows.extend(unknown_kinds());
    rows.extend(behind_an_item());
    rows
}

/// A refused row of one item's bytes.
fn row(what: &str, item: &[u8], refusal: (u8, usize)) -> Row {
    let program = machine(3, &[assign(1)]).to_bytes();
    refused_bytes(what, [program, one(item)], refusal.0, refusal.1)
}

/// Bytes behind map and kind, enough for any map.
const FIELDS: [u8; 9] = [1, 0, 1, 0, 0, 0, 0, 1, 1];

/// A refused row of a map that is not the kind's: 6 at the map, with all bytes or with none behind.
fn wrong(map: u8, kind: u8) -> [Row; 2] {
    let what = format!("map-{map}-kind-{kind}");
    let whole = [&[map, kind], &FIELDS[..]].concat();
    [
        row(&what, &whole, (6, 2)),
        row(&format!("{what}-cut"), &[map, kind], (6, 2)),
    ]
}

/// Kinds that are no pops: no map of theirs has bit 6, be it an old one, one with a high byte or a
/// pop's.
fn commands() -> Vec<Row> {
    let mut rows = Vec::new();
    for (kind, maps) in [
        (1, [27 + 64, 59 + 64, 155 + 64, 187 + 64, 93]),
        (2, [27 + 64, 59 + 64, 155 + 64, 187 + 64, 125]),
        (3, [3 + 64, 131 + 64, 64, 93, 125]),
        (4, [3 + 64, 131 + 64, 64, 93, 125]),
        (5, [3 + 64, 131 + 64, 64, 93, 125]),
        (6, [3 + 64, 131 + 64, 64, 93, 125]),
        (9, [3 + 64, 131 + 64, 64, 93, 125]),
    ] {
        rows.extend(maps.into_iter().flat_map(|map| wrong(map, kind)));
    }
    rows
}

/// Pops: 93 and 125 are theirs, so a record that ends behind the kind is 4; with one bit less or
/// more they are not.
fn pops() -> Vec<Row> {
    let mut rows = Vec::new();
    for kind in [7, 8] {
        for map in [93, 125] {
            let what = format!("map-{map}-kind-{kind}-alone");
            rows.push(row(&what, &[map, kind], (4, 4)));
            // without rank, queue, place rank or cell; with a transition, or a high byte, or both
            for other in [
                map - 1,
                map - 4,
                map - 8,
                map - 16,
                map + 2,
                map + 128,
                map + 130,
            ] {
                rows.extend(wrong(other, kind));
            }
        }
        rows.extend(
            [64, 65, 96, 67]
                .into_iter()
                .flat_map(|map| wrong(map, kind)),
        );
    }
    rows
}

/// Unknown kinds with the pops' new maps: 6 at the kind.
fn unknown_kinds() -> Vec<Row> {
    let mut rows = Vec::new();
    for kind in [0, 10, 71, 93, 255] {
        for map in [93, 125] {
            let what = format!("map-{map}-kind-{kind}");
            rows.push(row(&what, &[map, kind, 1, 0, 1, 0, 0, 0, 0, 1], (6, 3)));
        }
    }
    rows
}

/// Maps with bit 6 behind an assign of four bytes.
fn behind_an_item() -> Vec<Row> {
    let program = || machine(3, &[assign(1)]).to_bytes();
    let of = |what: &str, item: &[u8], refusal: (u8, usize)| {
        let record = several(&[&[3, 3, 1, 0], item]);
        refused_bytes(what, [program(), record], refusal.0, refusal.1)
    };
    vec![
        of("second-map-67", &[67, 3, 1, 0, 1], (6, 6)),
        of("second-map-221", &[221, 7, 1, 0, 1, 0, 0, 1, 1], (6, 6)),
        of("second-map-93-alone", &[93, 8], (4, 8)),
    ]
}
