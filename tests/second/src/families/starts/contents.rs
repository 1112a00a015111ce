//! What a start says: its two forms where all is 0, readings in the first and last cells, values at
//! the edges, and machines of each size, each with a record of no items.

use super::accepted;
use super::build::{full_start, machine, map_of, rank_bytes, start, Readings};
use crate::families::base::join;
use crate::families::row::{own_order, Row};

/// All rows.
pub fn rows() -> Vec<Row> {
    let parts = [zero_starts(), ends(), values(), sizes(), ranks()];
    parts.into_iter().flatten().chain([longest()]).collect()
}

/// A cell with its value, the cell by its rank and number.
type Value = ((usize, usize), u16);

/// A row of no items: the last cells are the readings, and the listing has those alone.
fn nothing_done(
    what: &str,
    (ranks, cells): (usize, usize),
    start: Vec<u8>,
    values: &[Value],
) -> Row {
    let program = machine(ranks, cells, &[]);
    let mut lines = "order 0\n".to_string();
    for ((rank, cell), value) in values {
        lines.push_str(&format!("cell {rank} {cell} {value}\n"));
    }
    let slip = vec![0; if ranks > 8 { 2 } else { 1 }];
    accepted(what, &program, &[], start, own_order(0), values)
        .with_slip(slip)
        .with_listing(lines)
}

/// No bytes, and the zero start written out, for machines of each size: all is 0.
fn zero_starts() -> Vec<Row> {
    let mut rows = Vec::new();
    for (ranks, cells) in [(1, 1), (1, 64), (2, 8), (8, 9), (9, 63), (16, 1), (16, 64)] {
        let what = format!("of-{ranks}-by-{cells}");
        rows.extend([
            nothing_done(&format!("no-bytes-{what}"), (ranks, cells), Vec::new(), &[]),
            nothing_done(
                &format!("zero-start-{what}"),
                (ranks, cells),
                vec![0; 8 * ranks],
                &[],
            ),
        ]);
    }
    rows
}

/// Readings in the first cell, in the last, and in both, for each A about a byte's end.
fn ends() -> Vec<Row> {
    let mut rows = Vec::new();
    for cells in [1, 7, 8, 9, 16, 17, 32, 63, 64] {
        let last = cells - 1;
        let row = |what: &str, readings: Readings| {
            let values: Vec<Value> = readings
                .iter()
                .map(|&(cell, value)| ((1, cell), value))
                .collect();
            let what = format!("{what}-of-{cells}");
            nothing_done(&what, (1, cells), rank_bytes(readings), &values)
        };
        rows.push(row("last-cell", &[(last, 772)]));
        if last > 0 {
            rows.push(row("first-cell", &[(0, 515)]));
            rows.push(row("both-ends", &[(0, 515), (last, 772)]));
        }
    }
    rows
}

/// Values at the edges, and values of which one byte is 0.
fn values() -> Vec<Row> {
    let row = |value: u16| {
        let what = format!("value-{value}");
        let bytes = rank_bytes(&[(1, value)]);
        nothing_done(&what, (1, 2), bytes, &[((1, 1), value)])
    };
    [
        1, 2, 255, 256, 257, 4_096, 32_767, 32_768, 65_280, 65_534, 65_535,
    ]
    .map(row)
    .into()
}

/// All cells of a rank, for each A; a map whose bits stand in a pattern of its own; and what is read
/// where a value may be taken for another's.
fn sizes() -> Vec<Row> {
    let mut rows = Vec::new();
    for cells in [2usize, 8, 9, 63, 64] {
        let readings: Vec<(usize, u16)> = (0..cells)
            .map(|cell| (cell, 1 + 257 * cell as u16))
            .collect();
        let values: Vec<Value> = readings
            .iter()
            .map(|&(cell, value)| ((1, cell), value))
            .collect();
        rows.push(nothing_done(
            &format!("all-of-{cells}"),
            (1, cells),
            rank_bytes(&readings),
            &values,
        ));
    }
    let one_in_each_byte = join(
        &map_of([0, 9, 18, 27, 36, 45, 54, 63]),
        &[0, 1, 0, 2, 0, 3, 0, 4],
    );
    let one_in_each_byte = join(&one_in_each_byte, &[0, 5, 0, 6, 0, 7, 0, 8]);
    let diagonal: Vec<Value> = (0..8)
        .map(|byte| ((1, 9 * byte), byte as u16 + 1))
        .collect();
    rows.push(nothing_done(
        "one-in-each-byte",
        (1, 64),
        one_in_each_byte,
        &diagonal,
    ));
    // the bytes of a map read as one number, written by hand
    let map = [0x80, 0, 0, 0x10, 0, 0, 4, 2];
    let bytes = [&map[..], &[0, 9, 0, 8, 0, 7, 0, 6]].concat();
    let cells = [((1, 1), 9), ((1, 10), 8), ((1, 36), 7), ((1, 63), 6)];
    rows.push(nothing_done("map-by-hand", (1, 64), bytes, &cells));
    rows
}

/// A reading in each cell of the largest machine.
fn longest() -> Row {
    let places = (1..=16).flat_map(|rank| (0..64).map(move |cell| (rank, cell)));
    let values: Vec<Value> = places.map(|place| (place, 258)).collect();
    nothing_done("longest", (16, 64), full_start(), &values)
}

/// Readings at one rank of several, at all of them, and at every other.
fn ranks() -> Vec<Row> {
    let mut rows = Vec::new();
    for ranks in [2, 8, 9, 15, 16] {
        for rank in [1, ranks] {
            let mut parts: Vec<Readings> = vec![&[]; ranks];
            parts[rank - 1] = &[(1, 600)];
            let what = format!("rank-{rank}-of-{ranks}");
            let values = [((rank, 1), 600)];
            rows.push(nothing_done(&what, (ranks, 2), start(&parts), &values));
        }
        let every_other: Vec<usize> = (1..=ranks).step_by(2).collect();
        let (mut bytes, mut values) = (Vec::new(), Vec::new());
        for rank in 1..=ranks {
            if every_other.contains(&rank) {
                let value = 300 + rank as u16;
                bytes.extend(rank_bytes(&[(0, value), (2, 1)]));
                values.extend([((rank, 0), value), ((rank, 2), 1)]);
            } else {
                bytes.extend(rank_bytes(&[]));
            }
        }
        let what = format!("every-other-of-{ranks}");
        rows.push(nothing_done(&what, (ranks, 3), bytes, &values));
    }
    // the same values at other ranks: rank 1 has two, rank 2 one
    let (two, one) = (&[(0, 4), (1, 5)][..], &[(0, 6)][..]);
    rows.push(nothing_done(
        "two-and-one",
        (2, 2),
        start(&[two, one]),
        &[((1, 0), 4), ((1, 1), 5), ((2, 0), 6)],
    ));
    rows.push(nothing_done(
        "one-and-two",
        (2, 2),
        start(&[one, two]),
        &[((1, 0), 6), ((2, 0), 4), ((2, 1), 5)],
    ));
    rows
}
