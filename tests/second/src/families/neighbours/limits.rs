//! Names of up to sixteen ranks, and the longest queues that they pass.

use super::{accepted, machine, own_order, refused};
use crate::families::parts::{command, naming, popa, popb, read, write};
use crate::families::row::Row;
use crate::program::Kind;
use crate::record::Item;

/// All rows at the limits.
pub fn rows() -> Vec<Row> {
    let mut rows = Vec::new();
    for (low, high) in [(8, 16), (1, 9), (7, 15)] {
        rows.extend(same_low_bits(low, high));
    }
    rows.extend([all_ranks(), longest_queue()]);
    rows
}

/// A write to each of two ranks whose numbers have the same low bits, by rank 2: the one of the
/// higher rank, the newer, overtakes; and a name of one does not take the other's.
fn same_low_bits(low: usize, high: usize) -> Vec<Row> {
    let transitions = [
        write(0, low as u16, 2),
        write(1, high as u16, 3),
        read(4, high as u16, 5),
    ];
    let program = machine(16, &transitions);
    let (to_low, to_high) = (command(Kind::Write, 2, 0), command(Kind::Write, 2, 1));
    let read = command(Kind::Read, 2, 2);
    let passed = [
        to_low,
        to_high,
        read,
        naming(popa(2, (2, 1)), high),
        popa(2, (2, 0)),
        popa(2, (high, 5)),
        naming(popb(2, (low, 2)), low),
        naming(popb(2, (high, 3)), high),
        naming(popb(2, (2, 4)), high),
    ];
    let what = format!("16-{high}-past-{low}");
    let of = |what: &str, items: &[Item]| {
        let what = format!("{what}-of-{low}-and-{high}");
        refused(&what, &program, items, 10, items.len() - 1)
    };
    vec![
        accepted(&what, &program, &passed, own_order(3), &[]),
        of("high-named", &[to_low, naming(popa(2, (2, 0)), high)]),
        of("low-named", &[to_high, naming(popa(2, (2, 1)), low)]),
        of(
            "low-named-popb",
            &[read, popa(2, (high, 5)), naming(popb(2, (2, 4)), low)],
        ),
    ]
}

/// Rank 5 writes cell 0 to cell 1 of each of sixteen ranks; fetched are the highest first, and
/// delivered those of even ranks first, the lowest first, and then those of odd ranks. All is 0, and
/// no two deliveries are to the same cell: the order is the own one.
fn all_ranks() -> Row {
    let transitions: Vec<_> = (1..=16).map(|rank| write(0, rank, 1)).collect();
    let program = machine(16, &transitions);
    let mut items: Vec<Item> = (0..16)
        .map(|number| command(Kind::Write, 5, number))
        .collect();
    items.extend((1..=16).rev().map(|rank| naming(popa(5, (5, 0)), rank)));
    let even = (2..=16).step_by(2);
    let odd = (1..=16).step_by(2);
    items.extend(even.chain(odd).map(|rank| naming(popb(5, (rank, 1)), rank)));
    accepted("16-all-named", &program, &items, own_order(16), &[])
        .with_slip(vec![0x00, 0x10, 0, 16])
}

/// 341 writes of rank 1, to ranks 2 and 3 in turn, rank 2 first: 171 and 170. Those to rank 3 are
/// all fetched and delivered before any to rank 2. Each rank's come in their own order to its one
/// cell, so the order is the own one.
fn longest_queue() -> Row {
    let program = machine(3, &[write(0, 2, 1), write(0, 3, 1)]);
    let mut items: Vec<Item> = (0..341)
        .map(|number| command(Kind::Write, 1, number % 2))
        .collect();
    for (rank, count) in [(3, 170), (2, 171)] {
        items.extend(vec![naming(popa(1, (1, 0)), rank); count]);
        items.extend(vec![naming(popb(1, (rank, 1)), rank); count]);
    }
    accepted("longest-queue", &program, &items, own_order(341), &[])
        .with_lists(341, 24)
        .with_slip(vec![1, 1, 85])
}
