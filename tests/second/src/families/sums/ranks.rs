//! Expressions with the own rank and N, which have a value at one rank and none at another, or in a
//! program of so many ranks and not of more.

use super::build::{assume_of, constant, difference, machine, product, store_of, sum};
use super::{accepted, own_order, refused, without_value};
use crate::expression::Expression;
use crate::expression::Expression::{OwnRank, RankCount};
use crate::families::parts::{at, command, popa, popb, with_operand, write};
use crate::families::row::Row;
use crate::program::Kind;
use crate::record::Item;

/// All rows of ranks.
pub fn rows() -> Vec<Row> {
    let mut rows = own_ranks();
    rows.extend(counts());
    rows.extend(both());
    rows.extend(conditions());
    rows.extend(remote_ranks());
    rows.push(sixteen_ranks());
    rows
}

/// A store of a rank in its cell 0.
fn stored(rank: usize) -> Item {
    at(command(Kind::Store, rank, 0), 0)
}

/// Stores of the same expression by these ranks, with these values, in a program of so many ranks;
/// and then the same with a store by one more rank, where it has no value.
fn stores(
    what: &str,
    ranks: usize,
    expression: Expression,
    values: &[(usize, u16)],
    without: &[usize],
) -> Vec<Row> {
    let program = machine(ranks, &[store_of(expression)]);
    let items: Vec<Item> = values.iter().map(|&(rank, _)| stored(rank)).collect();
    let cell = |&(rank, value): &(usize, u16)| ((rank, 0), value);
    let cells: Vec<_> = values.iter().map(cell).collect();
    let mut rows = Vec::new();
    if !items.is_empty() {
        let answer = own_order(items.len());
        rows.push(accepted(what, &program, &items, answer, &cells));
    }
    for &rank in without {
        let what = format!("{what}-rank-{rank}");
        let items = [&items[..], &[stored(rank)]].concat();
        rows.push(without_value(&what, &program, &items, values.len()));
    }
    rows
}

/// The own rank as either operand.
fn own_ranks() -> Vec<Row> {
    let number = constant;
    let parts = [
        stores(
            "own-and-65533",
            3,
            sum(OwnRank, number(65_533)),
            &[(1, 65_534), (2, 65_535)],
            &[3],
        ),
        stores(
            "65534-and-own",
            3,
            sum(number(65_534), OwnRank),
            &[(1, 65_535)],
            &[2, 3],
        ),
        stores(
            "own-less-2",
            3,
            difference(OwnRank, number(2)),
            &[(3, 1), (2, 0)],
            &[1],
        ),
        stores(
            "2-less-own",
            3,
            difference(number(2), OwnRank),
            &[(1, 1), (2, 0)],
            &[3],
        ),
        stores(
            "own-times-21845",
            4,
            product(OwnRank, number(21_845)),
            &[(3, 65_535), (1, 21_845)],
            &[4],
        ),
        stores(
            "21846-times-own",
            3,
            product(number(21_846), OwnRank),
            &[(2, 43_692)],
            &[3],
        ),
        stores(
            "own-times-4096",
            16,
            product(OwnRank, number(4_096)),
            &[(15, 61_440)],
            &[16],
        ),
        stores(
            "own-and-65520",
            16,
            sum(OwnRank, number(65_520)),
            &[(15, 65_535)],
            &[16],
        ),
    ];
    parts.into_iter().flatten().collect()
}

/// N as either operand.
fn counts() -> Vec<Row> {
    let number = constant;
    let n = || RankCount;
    let parts = [
        stores(
            "n-and-65533-of-2",
            2,
            sum(n(), number(65_533)),
            &[(1, 65_535)],
            &[],
        ),
        stores("n-and-65533-of-3", 3, sum(n(), number(65_533)), &[], &[1]),
        stores(
            "n-less-2-of-2",
            2,
            difference(n(), number(2)),
            &[(2, 0)],
            &[],
        ),
        stores("n-less-2-of-1", 1, difference(n(), number(2)), &[], &[1]),
        stores("2-less-n-of-3", 3, difference(number(2), n()), &[], &[2]),
        stores(
            "n-times-32767-of-2",
            2,
            product(n(), number(32_767)),
            &[(2, 65_534)],
            &[],
        ),
        stores(
            "n-times-32768-of-1",
            1,
            product(n(), number(32_768)),
            &[(1, 32_768)],
            &[],
        ),
        stores(
            "n-times-32768-of-2",
            2,
            product(n(), number(32_768)),
            &[],
            &[1],
        ),
        stores(
            "n-times-4095-of-16",
            16,
            product(number(4_095), n()),
            &[(9, 65_520)],
            &[],
        ),
        stores(
            "n-times-4096-of-16",
            16,
            product(number(4_096), n()),
            &[],
            &[9],
        ),
        stores(
            "n-and-65519-of-16",
            16,
            sum(number(65_519), n()),
            &[(16, 65_535)],
            &[],
        ),
        stores(
            "n-and-65520-of-16",
            16,
            sum(number(65_520), n()),
            &[],
            &[16],
        ),
    ];
    parts.into_iter().flatten().collect()
}

/// The own rank and N.
fn both() -> Vec<Row> {
    let parts = [
        stores(
            "n-less-own",
            3,
            difference(RankCount, OwnRank),
            &[(1, 2), (2, 1), (3, 0)],
            &[],
        ),
        stores(
            "own-less-n",
            3,
            difference(OwnRank, RankCount),
            &[(3, 0)],
            &[1, 2],
        ),
    ];
    parts.into_iter().flatten().collect()
}

/// Assumes that pass at one rank, give 0 at another, and have no value at a third.
fn conditions() -> Vec<Row> {
    let program = machine(3, &[assume_of(difference(OwnRank, constant(2)))]);
    let assumed = |rank| command(Kind::Assume, rank, 0);
    let what = "assume-own-less-2";
    vec![
        accepted(what, &program, &[assumed(3)], own_order(1), &[]),
        refused(what, &program, &[assumed(3), assumed(2)], 9, 1),
        without_value(what, &program, &[assumed(3), assumed(1)], 1),
    ]
}

/// The neighbour's rank, 3 − own, in a program of four ranks: 1 for rank 2, outside for rank 3, and
/// without a value for rank 4.
fn remote_ranks() -> Vec<Row> {
    let neighbour = difference(constant(3), OwnRank);
    let program = machine(4, &[with_operand(write(0, 0, 1), 1, neighbour)]);
    let written = |rank| {
        [
            command(Kind::Write, rank, 0),
            popa(rank, (rank, 0)),
            popb(rank, (1, 1)),
        ]
    };
    let what = "neighbour-of-3";
    vec![
        accepted(what, &program, &written(2), own_order(1), &[]),
        refused(what, &program, &written(3), 8, 0),
        without_value(what, &program, &written(4), 0),
    ]
}

/// Sixteen ranks store 65,519 + own, the last of them 65,535, the highest rank first.
fn sixteen_ranks() -> Row {
    let program = machine(16, &[store_of(sum(constant(65_519), OwnRank))]);
    let items: Vec<Item> = (1..=16).rev().map(stored).collect();
    let value = |rank: usize| 65_519 + rank as u16;
    let cells: Vec<_> = (1..=16).map(|rank| ((rank, 0), value(rank))).collect();
    let mut listing = String::from("order 16\n");
    for number in 0..16 {
        let rank = 16 - number;
        listing.push_str(&format!("group {number} store {rank} {number}\n"));
    }
    for rank in 1..=16 {
        listing.push_str(&format!("cell {rank} 0 {}\n", value(rank)));
    }
    let slip = [&[0xff, 0xff][..], &[0, 1].repeat(16)].concat();
    accepted("16-ranks", &program, &items, own_order(16), &cells)
        .with_slip(slip)
        .with_listing(listing)
}
