//! Start bytes that are refused: a byte missing or left over, a bit for a cell A or above, a listed
//! 0, and which of these comes first.

use super::build::{bare, full_start, map_of, rank_bytes, start, Readings};
use super::refused_bytes;
use crate::families::base::join;
use crate::families::row::Row;

/// The record of no items.
const NO_ITEMS: [u8; 2] = [0, 0];
/// Readings of two ranks of nine cells: 22 bytes, with values at 8, 10 and 20 and the second map at
/// 12.
const TWO_RANKS: [Readings; 2] = [&[(0, 5), (8, 258)], &[(3, 65_535)]];

/// All rows.
pub fn rows() -> Vec<Row> {
    let parts = [cuts(), left_over(), bits(), zeros(), first_fault()];
    parts.into_iter().flatten().collect()
}

/// A row of a bare program of so many ranks and cells that is refused with 19 at this place.
fn row(what: &str, (ranks, cells): (u8, u8), start: Vec<u8>, place: usize) -> Row {
    let inputs = [bare(ranks, cells), start, NO_ITEMS.to_vec()];
    refused_bytes(what, inputs, 19, place).with_listing(format!("refused 19 {place}\n"))
}

/// A start cut at every byte: a missing byte is placed at the length, in a map and in a value.
fn cuts() -> Vec<Row> {
    let whole = start(&TWO_RANKS);
    let cut = |length: usize| row("cut", (2, 9), whole[..length].to_vec(), length);
    let cut_zero = |length: usize| row("zero-start-cut", (2, 9), vec![0; length], length);
    let cut_one = |length: usize| row("one-rank-cut", (1, 64), vec![0; length], length);
    let mut rows: Vec<Row> = (1..whole.len()).map(cut).collect();
    rows.extend((1..16).map(cut_zero));
    rows.extend((1..8).map(cut_one));
    let longest = full_start();
    rows.extend([
        row("longest-cut", (16, 64), longest[..2175].to_vec(), 2175),
        row("fifteen-of-16-ranks", (16, 1), vec![0; 8 * 15], 120),
        row("eight-of-9-ranks", (9, 1), vec![0; 8 * 8], 64),
        row(
            "half-a-last-value-of-16",
            (16, 64),
            [vec![0; 8 * 15], rank_bytes(&[(63, 256)])[..9].to_vec()].concat(),
            129,
        ),
    ]);
    rows
}

/// Bytes after the last rank's values: at the first of them.
fn left_over() -> Vec<Row> {
    let more = |bytes: &[u8]| join(&start(&TWO_RANKS), bytes);
    vec![
        row("left-over-0", (2, 9), more(&[0]), 22),
        row("left-over-255", (2, 9), more(&[255]), 22),
        row("left-over-value", (2, 9), more(&[0, 7]), 22),
        row("left-over-map", (2, 9), more(&[0; 8]), 22),
        row("left-over-zero-start", (2, 9), vec![0; 17], 16),
        row("left-over-of-1", (1, 1), vec![0; 9], 8),
        row(
            "left-over-longest",
            (16, 64),
            join(&full_start(), &[1]),
            2176,
        ),
        row("a-rank-too-many", (1, 1), vec![0; 16], 8),
        row("a-rank-too-many-of-16", (16, 1), vec![0; 8 * 17], 128),
        row(
            "left-over-full",
            (1, 1),
            join(&rank_bytes(&[(0, 1)]), &[1]),
            10,
        ),
    ]
}

/// A bit for a cell A or above, in each byte of the map, alone and beside a right one, with a value
/// for it and without.
fn bits() -> Vec<Row> {
    let mut rows = Vec::new();
    let above: [(u8, &[usize]); 6] = [
        (1, &[1, 7, 8, 16, 24, 32, 40, 48, 56, 63]),
        (7, &[7, 8, 63]),
        (8, &[8, 15, 56]),
        (9, &[9, 16, 57, 63]),
        (56, &[56, 63]),
        (63, &[63]),
    ];
    for (cells, bits) in above {
        for &bit in bits {
            let what = format!("bit-{bit}-of-{cells}");
            let alone = rank_bytes(&[(bit, 7)]);
            rows.push(row(&what, (1, cells), alone, 0));
        }
        let bit = bits[0];
        let beside = rank_bytes(&[(0, 3), (bit, 7)]);
        rows.extend([
            row(
                &format!("bit-{bit}-of-{cells}-without-value"),
                (1, cells),
                map_of([bit]),
                0,
            ),
            row(
                &format!("bit-{bit}-of-{cells}-beside-cell-0"),
                (1, cells),
                beside.clone(),
                0,
            ),
            row(
                &format!("bit-{bit}-of-{cells}-at-rank-2"),
                (2, cells),
                join(&rank_bytes(&[(0, 3)]), &beside),
                10,
            ),
        ]);
    }
    rows.extend([
        row("all-bits-of-63", (1, 63), vec![255; 8 + 128], 0),
        row("all-bits-of-1", (1, 1), vec![255; 8], 0),
        row(
            "bit-8-of-8-at-rank-16",
            (16, 8),
            join(&[0; 120], &map_of([8])),
            120,
        ),
    ]);
    rows
}

/// A listed 0: at its first byte.
fn zeros() -> Vec<Row> {
    let one = |readings: Readings, place| {
        let listed = readings.iter().position(|&(_, value)| value == 0);
        let what = format!("zero-{}-of-{}", listed.unwrap_or(0), readings.len());
        row(&what, (1, 64), rank_bytes(readings), place)
    };
    vec![
        one(&[(0, 0)], 8),
        one(&[(0, 0), (1, 4)], 8),
        one(&[(0, 4), (1, 0)], 10),
        one(&[(5, 4), (9, 0), (63, 1)], 10),
        one(&[(5, 4), (9, 1), (63, 0)], 12),
        row("zero-in-cell-63", (1, 64), rank_bytes(&[(63, 0)]), 8),
        row("zero-at-rank-2", (2, 2), start(&[&[(1, 9)], &[(0, 0)]]), 18),
        row(
            "zero-at-rank-16",
            (16, 1),
            join(&[0; 120], &rank_bytes(&[(0, 0)])),
            128,
        ),
    ]
}

/// Two faults in one start: the one that is read first.
fn first_fault() -> Vec<Row> {
    let bad_map = map_of([2]);
    vec![
        // a map is judged when all of it is read
        row("bad-bit-in-seven-bytes", (1, 2), vec![255; 7], 7),
        row("bad-bit-and-no-value", (1, 2), map_of([0, 2]), 0),
        row(
            "bad-bit-and-listed-0",
            (1, 2),
            rank_bytes(&[(0, 0), (2, 0)]),
            0,
        ),
        row(
            "bad-bit-and-left-over",
            (1, 2),
            join(&rank_bytes(&[(2, 1)]), &[0]),
            0,
        ),
        // a value is judged when both its bytes are read
        row(
            "half-a-listed-0",
            (1, 2),
            rank_bytes(&[(0, 0)])[..9].to_vec(),
            9,
        ),
        row(
            "listed-0-and-no-next-value",
            (1, 2),
            rank_bytes(&[(0, 0), (1, 1)])[..10].to_vec(),
            8,
        ),
        row(
            "listed-0-and-half-a-next-value",
            (1, 2),
            rank_bytes(&[(0, 0), (1, 1)])[..11].to_vec(),
            8,
        ),
        row("two-listed-0", (1, 2), rank_bytes(&[(0, 0), (1, 0)]), 8),
        row(
            "listed-0-and-left-over",
            (1, 2),
            join(&rank_bytes(&[(1, 0)]), &[0]),
            8,
        ),
        // rank by rank
        row(
            "listed-0-and-bad-bit-at-rank-2",
            (2, 2),
            join(&rank_bytes(&[(1, 0)]), &bad_map),
            8,
        ),
        row(
            "bad-bit-at-rank-2-and-listed-0-at-rank-3",
            (3, 2),
            [
                rank_bytes(&[(1, 6)]),
                bad_map.clone(),
                rank_bytes(&[(0, 0)]),
            ]
            .concat(),
            10,
        ),
        row("bad-bit-and-no-rank-2", (2, 2), rank_bytes(&[(2, 1)]), 0),
        // all maps before all values: the value of rank 1 is read where the map of rank 2 stands
        row(
            "maps-first",
            (2, 2),
            [map_of([0]), map_of([1]), vec![0, 5, 0, 6]].concat(),
            8,
        ),
        // the lowest cells in the first byte: those are cells 56 to 63
        row(
            "map-from-the-other-end",
            (1, 2),
            [vec![1, 0, 0, 0, 0, 0, 0, 0], vec![0, 5]].concat(),
            0,
        ),
        // bit 7 for cell 0
        row(
            "map-bits-from-the-other-end",
            (1, 2),
            [vec![0, 0, 0, 0, 0, 0, 0, 128], vec![0, 5]].concat(),
            0,
        ),
    ]
}
