//! Slips of runs in which some ranks have commands: their bytes written by hand.

use super::{accepted, machine, own_order};
use crate::families::parts::{assign, command, popa, popb, write};
use crate::families::row::Row;
use crate::program::Kind;
use crate::record::Item;

/// N, how many assigns which ranks take, and the slip.
type Written = (usize, &'static [(usize, usize)], &'static [u8]);

/// Maps of one byte and of two, with a bit at each of their ends, and counts of both bytes.
const SLIPS: [Written; 19] = [
    (8, &[(1, 1)], &[0x01, 0, 1]),
    (8, &[(8, 2)], &[0x80, 0, 2]),
    (8, &[(8, 1), (1, 2)], &[0x81, 0, 2, 0, 1]),
    (9, &[(1, 1)], &[0x00, 0x01, 0, 1]),
    (9, &[(8, 2)], &[0x00, 0x80, 0, 2]),
    (9, &[(9, 3)], &[0x01, 0x00, 0, 3]),
    (9, &[(9, 3), (8, 2)], &[0x01, 0x80, 0, 2, 0, 3]),
    (9, &[(9, 256)], &[0x01, 0x00, 1, 0]),
    (9, &[(1, 258), (9, 1)], &[0x01, 0x01, 1, 2, 0, 1]),
    (10, &[(10, 1), (2, 2)], &[0x02, 0x02, 0, 2, 0, 1]),
    (12, &[(12, 1), (5, 2)], &[0x08, 0x10, 0, 2, 0, 1]),
    (15, &[(15, 4)], &[0x40, 0x00, 0, 4]),
    (
        15,
        &[(15, 1), (8, 2), (9, 3)],
        &[0x41, 0x80, 0, 2, 0, 3, 0, 1],
    ),
    (16, &[(1, 7)], &[0x00, 0x01, 0, 7]),
    (16, &[(8, 7)], &[0x00, 0x80, 0, 7]),
    (16, &[(9, 7)], &[0x01, 0x00, 0, 7]),
    (16, &[(16, 7)], &[0x80, 0x00, 0, 7]),
    (
        16,
        &[(16, 1), (1, 2), (9, 3), (8, 4)],
        &[0x81, 0x81, 0, 2, 0, 4, 0, 3, 0, 1],
    ),
    (16, &[(16, 1024)], &[0x80, 0x00, 4, 0]),
];

/// All rows with slips by hand.
pub fn rows() -> Vec<Row> {
    let mut rows: Vec<Row> = SLIPS.into_iter().map(assigns).collect();
    rows.extend([8, 9, 15, 16].map(pops));
    rows
}

/// Ranks that take so many assigns each.
fn assigns((ranks, taken, slip): Written) -> Row {
    let program = machine(ranks, &[assign(1)]);
    let of_rank = |&(rank, times): &(usize, usize)| vec![command(Kind::Assign, rank, 0); times];
    let items: Vec<Item> = taken.iter().flat_map(of_rank).collect();
    let by: Vec<String> = taken
        .iter()
        .map(|(rank, times)| format!("{times}-by-{rank}"))
        .collect();
    let what = format!("{ranks}-slip-of-{}", by.join("-"));
    accepted(&what, &program, &items, own_order(items.len()), &[]).with_slip(slip.to_vec())
}

/// Rank N alone writes to rank 1: its pops are no commands, and rank 1 has none.
fn pops(ranks: usize) -> Row {
    let program = machine(ranks, &[write(0, 1, 1)]);
    let items = [
        command(Kind::Write, ranks, 0),
        popa(ranks, (ranks, 0)),
        popb(ranks, (1, 1)),
    ];
    let slip: &[u8] = match ranks {
        8 => &[0x80, 0, 1],
        9 => &[0x01, 0x00, 0, 1],
        15 => &[0x40, 0x00, 0, 1],
        _ => &[0x80, 0x00, 0, 1],
    };
    let what = format!("{ranks}-slip-without-pops");
    accepted(&what, &program, &items, own_order(1), &[]).with_slip(slip.to_vec())
}
