//! Accepted runs of 8, 9, 15 and 16 ranks: every rank in turn, rows, rings through all ranks, the
//! neighbours of document 01 as high ranks, and remote ranks up to N. Slips and listings are
//! written out beside them.

use super::{accepted, machine, own_order, SIZES};
use crate::corpus::Expected;
use crate::expression::{Expression, Operator};
use crate::families::parts::{
    assume, at, bar, command, giving, load, popa, popb, read, store, with_operand, write,
};
use crate::families::row::Row;
use crate::program::{Kind, Program, Transition};
use crate::record::Item;

/// All accepted runs.
pub fn rows() -> Vec<Row> {
    let mut rows = Vec::new();
    for ranks in SIZES {
        rows.push(stores(ranks, "rising", &(1..=ranks).collect::<Vec<_>>()));
        rows.push(stores(
            ranks,
            "falling",
            &(1..=ranks).rev().collect::<Vec<_>>(),
        ));
        rows.push(one_row(ranks));
        rows.push(ring_of_all(ranks));
        rows.push(gathered(ranks));
        rows.push(read_from_last(ranks));
        rows.push(assumed_by_last(ranks));
    }
    for (ranks, one, other) in [(9, 8, 9), (9, 9, 1), (15, 15, 9), (16, 9, 16), (16, 16, 1)] {
        rows.extend(neighbours(ranks, one, other));
        rows.push(delivery_after_a_store(ranks, one, other));
    }
    for (low, high) in [(1, 9), (8, 16), (7, 15)] {
        rows.push(both_in_flight(low, high));
    }
    rows
}

/// A map of all ranks, as a slip has it.
fn full_map(ranks: usize) -> Vec<u8> {
    match ranks {
        8 => vec![0xff],
        9 => vec![0x01, 0xff],
        15 => vec![0x7f, 0xff],
        _ => vec![0xff, 0xff],
    }
}

/// A slip of all ranks with these low bytes of their counts.
fn full_slip(ranks: usize, count: impl Fn(usize) -> u8) -> Vec<u8> {
    let mut slip = full_map(ranks);
    for rank in 1..=ranks {
        slip.extend([0, count(rank)]);
    }
    slip
}

/// A store of the own rank to cell 0.
fn store_own() -> Transition {
    with_operand(store(0, 0), 1, Expression::OwnRank)
}

/// Each rank stores its number in its cell 0, in this order of ranks, every other giving it.
fn stores(ranks: usize, what: &str, order: &[usize]) -> Row {
    let program = machine(ranks, &[store_own()]);
    let item = |&rank: &usize| {
        let item = at(command(Kind::Store, rank, 0), 0);
        match rank % 2 {
            0 => giving(item, rank as u16),
            _ => item,
        }
    };
    let items: Vec<Item> = order.iter().map(item).collect();
    let stored: Vec<_> = order.iter().map(|&rank| ((rank, 0), rank)).collect();
    let mut listing = format!("order {ranks}\n");
    for (number, rank) in order.iter().enumerate() {
        listing.push_str(&format!("group {number} store {rank} {number}\n"));
    }
    for rank in 1..=ranks {
        listing.push_str(&format!("cell {rank} 0 {rank}\n"));
    }
    let what = format!("{ranks}-stores-{what}");
    accepted(&what, &program, &items, own_order(ranks), &stored)
        .with_slip(full_slip(ranks, |_| 1))
        .with_listing(listing)
}

/// One row: a group of N items.
fn one_row(ranks: usize) -> Row {
    let program = machine(ranks, &[bar()]);
    let items: Vec<Item> = (1..=ranks)
        .map(|rank| command(Kind::Bar, rank, 0))
        .collect();
    accepted(&format!("{ranks}-row"), &program, &items, own_order(1), &[])
        .with_lists(1, 2 * ranks)
        .with_slip(full_slip(ranks, |_| 1))
        .with_listing("order 1\ngroup 0 bar 0 0\n".into())
}

/// A write from cell 0 to cell 1 of the rank after the own one, rank 1 after rank N. With `own` less
/// than N as 1 or 0, that is 1 + own × (own < N).
fn write_to_next() -> Transition {
    let below = Expression::binary(Operator::Less, Expression::OwnRank, Expression::RankCount);
    let step = Expression::binary(Operator::Product, Expression::OwnRank, below);
    let next = Expression::binary(Operator::Sum, Expression::Constant(1), step);
    with_operand(write(0, 1, 1), 1, next)
}

/// Each rank stores 5 in cell 0, writes it to cell 1 of the next rank, and loads its own cell 1
/// before any delivery. Rank r has groups 3r − 3 to 3r − 1. The load of rank r comes before the
/// delivery of the write of rank r − 1, and that write before the load of its rank: so the ring
/// goes down through all ranks, and all stores are placed before it.
fn ring_of_all(ranks: usize) -> Row {
    let program = machine(ranks, &[store(0, 5), write_to_next(), load(1)]);
    let mut items = Vec::new();
    for rank in 1..=ranks {
        items.push(at(command(Kind::Store, rank, 0), 0));
        items.push(command(Kind::Write, rank, 1));
        items.push(giving(at(command(Kind::Load, rank, 2), 1), 0));
    }
    items.extend((1..=ranks).map(|rank| popa(rank, (rank, 0))));
    items.extend((1..=ranks).map(|rank| popb(rank, (rank % ranks + 1, 1))));
    let mut ring = vec![1, 2];
    for rank in (2..=ranks as u16).rev() {
        ring.extend([3 * rank - 2, 3 * rank - 1]);
    }
    let last: Vec<_> = (1..=ranks)
        .flat_map(|rank| [((rank, 0), 5), ((rank, 1), 5)])
        .collect();
    let what = format!("{ranks}-ring-of-all");
    accepted(&what, &program, &items, Expected::Ring(ring), &last)
        .with_slip(full_slip(ranks, |_| 3))
}

/// Each rank stores its number in cell 0 and writes it to the cell of rank N with that number.
fn gathered(ranks: usize) -> Row {
    let to_last = with_operand(write(0, 1, 1), 1, Expression::RankCount);
    let to_last = with_operand(to_last, 2, Expression::OwnRank);
    let program = Program {
        cells: ranks + 1,
        ..machine(ranks, &[store_own(), to_last])
    };
    let mut items = Vec::new();
    let mut last = Vec::new();
    for rank in 1..=ranks {
        let value = rank as u16;
        items.extend([
            at(command(Kind::Store, rank, 0), 0),
            command(Kind::Write, rank, 1),
            giving(popa(rank, (rank, 0)), value),
            giving(popb(rank, (ranks, rank)), value),
        ]);
        last.extend([((rank, 0), rank), ((ranks, rank), rank)]);
    }
    let what = format!("{ranks}-gathered");
    accepted(&what, &program, &items, own_order(2 * ranks), &last)
        .with_slip(full_slip(ranks, |_| 2))
}

/// Rank N stores its number, and rank 1 reads it from there.
fn read_from_last(ranks: usize) -> Row {
    let program = machine(ranks, &[store_own(), read(1, ranks as u16, 0)]);
    let items = [
        at(command(Kind::Store, ranks, 0), 0),
        command(Kind::Read, 1, 1),
        popa(1, (ranks, 0)),
        popb(1, (1, 1)),
    ];
    let last = [((ranks, 0), ranks), ((1, 1), ranks)];
    let what = format!("{ranks}-read-from-last");
    let listing = format!(
        "order 2\ngroup 0 store {ranks} 0\ngroup 1 read 1 1\ncell 1 1 {ranks}\ncell {ranks} 0 {ranks}\n"
    );
    accepted(&what, &program, &items, own_order(2), &last).with_listing(listing)
}

/// Rank N passes an assume that its number is N, and stores N.
fn assumed_by_last(ranks: usize) -> Row {
    let is_last = Expression::binary(
        Operator::Equal,
        Expression::OwnRank,
        Expression::Constant(ranks as u16),
    );
    let program = machine(
        ranks,
        &[
            with_operand(assume(1), 0, is_last),
            with_operand(store(1, 0), 1, Expression::RankCount),
        ],
    );
    let items = [
        command(Kind::Assume, ranks, 0),
        giving(at(command(Kind::Store, ranks, 1), 1), ranks as u16),
    ];
    let last = [((ranks, 1), ranks)];
    let what = format!("{ranks}-assumed-by-last");
    accepted(&what, &program, &items, own_order(2), &last)
}

/// Runs b and c of document 01 with two of many ranks, the others taking part in the row alone.
fn neighbours(ranks: usize, one: usize, other: usize) -> [Row; 2] {
    let program = machine(
        ranks,
        &[
            store_own(),
            write(0, other as u16, 1),
            write(0, one as u16, 1),
            bar(),
            load(1),
        ],
    );
    let mut first = vec![
        at(command(Kind::Store, one, 0), 0),
        at(command(Kind::Store, other, 0), 0),
        command(Kind::Write, one, 1),
        command(Kind::Write, other, 2),
        popa(one, (one, 0)),
        popa(other, (other, 0)),
    ];
    first.extend((1..=ranks).map(|rank| command(Kind::Bar, rank, 3)));
    let load = |value: usize| giving(at(command(Kind::Load, one, 4), 1), value as u16);
    let deliveries = [popb(one, (other, 1)), popb(other, (one, 1))];
    let early = [&first[..], &[load(0)], &deliveries].concat();
    let late = [&first[..], &deliveries, &[load(other)]].concat();
    let last = [
        ((one, 0), one),
        ((one, 1), other),
        ((other, 0), other),
        ((other, 1), one),
    ];
    let slip = full_slip(ranks, |rank| match rank {
        _ if rank == one => 4,
        _ if rank == other => 3,
        _ => 1,
    });
    let listing = ring_listing(ranks, one, other);
    let of = |run: &str, items: &[Item], answer| {
        let what = format!("{ranks}-run-{run}-of-{one}-and-{other}");
        accepted(&what, &program, items, answer, &last).with_slip(slip.clone())
    };
    [
        of("b", &early, Expected::Ring(vec![3, 4, 5])).with_listing(listing),
        of("c", &late, own_order(6)),
    ]
}

/// The listing of run b with these ranks: the row begins at item 6, and the load comes after it.
fn ring_listing(ranks: usize, one: usize, other: usize) -> String {
    let load = 6 + ranks;
    let mut lines =
        format!("ring 3\ngroup 3 write {other} 3\ngroup 4 bar 0 6\ngroup 5 load {one} {load}\n");
    let cells = [
        (one.min(other), one.max(other)),
        (one.max(other), one.min(other)),
    ];
    for (rank, neighbour) in cells {
        lines.push_str(&format!(
            "cell {rank} 0 {rank}\ncell {rank} 1 {neighbour}\n"
        ));
    }
    lines
}

/// One rank writes its number to cell 1 of the other, which stores 5 there before the delivery: so
/// its store comes before the write, whose number is lower.
fn delivery_after_a_store(ranks: usize, one: usize, other: usize) -> Row {
    let program = machine(
        ranks,
        &[store_own(), write(0, other as u16, 1), store(1, 5)],
    );
    let items = [
        at(command(Kind::Store, one, 0), 0),
        command(Kind::Write, one, 1),
        at(command(Kind::Store, other, 2), 1),
        popa(one, (one, 0)),
        popb(one, (other, 1)),
    ];
    let last = [((one, 0), one), ((other, 1), one)];
    let what = format!("{ranks}-other-order-of-{one}-and-{other}");
    accepted(
        &what,
        &program,
        &items,
        Expected::Order(vec![0, 2, 1]),
        &last,
    )
}

/// Transfers of two ranks with the same low bits at once: each has its own queues and cells.
fn both_in_flight(low: usize, high: usize) -> Row {
    let to_own = with_operand(write(0, 1, 1), 1, Expression::OwnRank);
    let program = machine(16, &[store_own(), to_own]);
    let items = [
        at(command(Kind::Store, low, 0), 0),
        at(command(Kind::Store, high, 0), 0),
        command(Kind::Write, low, 1),
        command(Kind::Write, high, 1),
        giving(popa(high, (high, 0)), high as u16),
        giving(popa(low, (low, 0)), low as u16),
        giving(popb(high, (high, 1)), high as u16),
        giving(popb(low, (low, 1)), low as u16),
    ];
    let last = [
        ((low, 0), low),
        ((low, 1), low),
        ((high, 0), high),
        ((high, 1), high),
    ];
    let what = format!("16-both-in-flight-{low}-and-{high}");
    accepted(&what, &program, &items, own_order(4), &last)
}
