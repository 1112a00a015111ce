//! Map bit 7 where it may not stand: with pops, without bit 1, and with bits that are not the
//! kind's. The verdict is the same whatever the program's size.

use super::build::{bar, popa, popb, sparse};
use super::refused_bytes;
use crate::families::base::{one, several};
use crate::families::row::Row;
use crate::record::Item;

/// All rows about maps with bit 7.
pub fn rows() -> Vec<Row> {
    let mut rows = with_pops();
    rows.extend(wrong_maps());
    rows.extend(unknown_kinds());
    rows.extend(after_an_item());
    rows
}

/// The item's bytes with bit 7 in its map and a high byte at its end.
fn with_high_byte(item: &Item) -> Vec<u8> {
    let mut bytes = Vec::new();
    item.write(&mut bytes);
    bytes[0] |= 128;
    bytes.push(1);
    bytes
}

/// A refused row of one item's bytes beside a program of so many transitions.
fn row(what: &str, size: usize, item: &[u8], place: usize) -> Row {
    let program = sparse(size, &[(size - 1, bar())]).to_bytes();
    refused_bytes(&format!("{what}-in-{size}"), [program, one(item)], 6, place)
}

/// Pops with bit 7, with and without a value.
fn with_pops() -> Vec<Row> {
    let mut rows = Vec::new();
    for (name, item) in [
        ("bit-7-of-popa", popa(1, (1, 0))),
        ("bit-7-of-popb", popb(1, (1, 0))),
    ] {
        let valued = Item {
            value: Some(0),
            ..item
        };
        for size in [1, 258] {
            rows.push(row(name, size, &with_high_byte(&item), 2));
            let name = format!("{name}-with-value");
            rows.push(row(&name, size, &with_high_byte(&valued), 2));
        }
    }
    rows
}

/// Maps with bit 7 that are not the kind's, each with enough bytes for what it names.
fn wrong_maps() -> Vec<Row> {
    let mut rows = Vec::new();
    for (kind, maps) in [
        (1, [131, 153, 185, 157, 189, 219, 159]),
        (2, [131, 153, 185, 157, 189, 251, 191]),
        (3, [128, 129, 130, 155, 163, 195, 187]),
        (4, [128, 129, 130, 155, 163, 195, 133]),
        (5, [128, 129, 130, 155, 163, 195, 135]),
        (6, [128, 129, 130, 155, 163, 195, 189]),
        (7, [128, 129, 131, 155, 187, 159, 191]),
        (8, [128, 129, 131, 155, 187, 159, 191]),
        (9, [128, 129, 130, 155, 163, 195, 255]),
    ] {
        for map in maps {
            let item = [map, kind, 1, 0, 1, 0, 0, 0, 0, 1, 1];
            rows.push(row(&format!("map-{map}-kind-{kind}"), 1, &item, 2));
        }
    }
    rows
}

/// Unknown kinds with maps that have bit 7: the kind is told.
fn unknown_kinds() -> Vec<Row> {
    let mut rows = Vec::new();
    for (map, kind) in [(131, 0), (131, 10), (155, 0), (187, 255), (128, 11)] {
        let item = [map, kind, 1, 0, 1];
        rows.push(row(&format!("map-{map}-kind-{kind}"), 1, &item, 3));
    }
    rows.push(row("map-131-kind-131", 258, &[131, 131, 1, 1, 1], 3));
    rows
}

/// Wrong maps behind an item with a high byte, and at the very end.
fn after_an_item() -> Vec<Row> {
    let program = || sparse(258, &[(257, bar())]).to_bytes();
    let bars = [[131, 9, 1, 1, 1], [131, 9, 2, 1, 1]];
    let of = |what: &str, item: &[u8], place| {
        let record = several(&[&bars[0], &bars[1], item]);
        refused_bytes(what, [program(), record], 6, place)
    };
    vec![
        of("after-two-bars-map-157", &[157, 7, 1, 0, 1, 0, 0, 1], 12),
        of("after-two-bars-map-153", &[153, 1], 12),
        of("after-two-bars-kind-0", &[131, 0], 13),
    ]
}
