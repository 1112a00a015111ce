//! Accepted runs: programs of each size with both forms of the count, and items of each kind that
//! take transitions below 256 and from 256 on.

use super::build::{
    assign, assume, at, bar, cells, command, giving, load, popa, popb, read, sparse, store, write,
};
use super::{accepted, own_order};
use crate::corpus::Expected;
use crate::families::row::Row;
use crate::program::{Kind, Program};
use crate::record::Item;

/// The sizes of programs: about one byte's count, about one byte's number, and the most.
const SIZES: [usize; 8] = [0, 1, 128, 129, 255, 256, 257, 400];

/// All accepted runs.
pub fn rows() -> Vec<Row> {
    let mut rows = Vec::new();
    for size in SIZES {
        rows.push(stores_of(size));
        if size >= 2 {
            rows.push(ring_of(size, size - 1, size / 2));
            rows.push(ring_of(size, 0, size - 1));
        }
    }
    for (writer, storer) in [(255, 256), (256, 255), (256, 257), (256, 0), (0, 256)] {
        rows.push(ring_of(258, writer, storer));
    }
    rows.push(delivery_after_a_store());
    rows.extend(neighbours());
    rows.extend([every_kind(false), every_kind(true)]);
    rows.extend(twins());
    rows.push(each_taken());
    rows
}

/// The first, middle and last transitions of a program, and those about 256.
fn picked(size: usize) -> Vec<usize> {
    let mut picked = vec![0, size / 2, 255, 256, 257, size.saturating_sub(1)];
    picked.retain(|&number| number < size);
    picked.sort();
    picked.dedup();
    picked
}

/// Rank 1 takes the picked transitions, rising: each a store of its own number to a cell of its
/// own, of which every other gives the value.
fn stores_of(size: usize) -> Row {
    let picked = picked(size);
    let numbered = || picked.iter().copied().enumerate();
    let placed: Vec<_> = numbered()
        .map(|(cell, number)| (number, store(cell as u16, number as u16)))
        .collect();
    let item = |(cell, number): (usize, usize)| {
        let item = at(command(Kind::Store, 1, number), cell);
        match cell % 2 {
            0 => giving(item, number as u16),
            _ => item,
        }
    };
    let items: Vec<Item> = numbered().map(item).collect();
    let stored: Vec<_> = numbered()
        .map(|(cell, number)| ((1, cell), number as u16))
        .collect();
    let order = own_order(picked.len());
    let program = sparse(size, &placed);
    accepted(
        &format!("{size}-order"),
        &program,
        &items,
        order,
        cells(&stored),
    )
}

/// As run e, with these two transitions: a write from cell 0 to cell 1, a store of 7 to cell 0
/// before the fetch. Program order leads to the store, and the fetch reads what it stores.
fn ring_of(size: usize, writer: usize, storer: usize) -> Row {
    let program = sparse(size, &[(writer, write(0, 1, 1)), (storer, store(0, 7))]);
    let items = [
        command(Kind::Write, 1, writer),
        at(command(Kind::Store, 1, storer), 0),
        popa(1, (1, 0)),
        popb(1, (1, 1)),
    ];
    let what = format!("{size}-ring-of-{writer}-and-{storer}");
    let last = cells(&[((1, 0), 7), ((1, 1), 7)]);
    accepted(&what, &program, &items, Expected::Ring(vec![0, 1]), last)
}

/// Rank 1 stores 9 and writes it to cell 1 of rank 2, where rank 2 stores 5 before the delivery: so
/// its store comes before the write, whose number is lower.
fn delivery_after_a_store() -> Row {
    let program = sparse(
        400,
        &[
            (257, store(0, 9)),
            (399, write(0, 2, 1)),
            (256, store(1, 5)),
        ],
    );
    let items = [
        at(command(Kind::Store, 1, 257), 0),
        command(Kind::Write, 1, 399),
        at(command(Kind::Store, 2, 256), 1),
        popa(1, (1, 0)),
        popb(1, (2, 1)),
    ];
    let last = cells(&[((1, 0), 9), ((2, 1), 9)]);
    let order = Expected::Order(vec![0, 2, 1]);
    accepted("400-other-order", &program, &items, order, last)
}

/// Runs b and c of document 01 with transitions from 256 on; rank 1's store and write are 256 and
/// 257, rank 2's 258 and 259.
fn neighbours() -> [Row; 2] {
    let program = sparse(
        262,
        &[
            (256, store(0, 1)),
            (257, write(0, 2, 1)),
            (258, store(0, 2)),
            (259, write(0, 1, 1)),
            (260, bar()),
            (261, load(1)),
        ],
    );
    let first = [
        at(command(Kind::Store, 1, 256), 0),
        at(command(Kind::Store, 2, 258), 0),
        command(Kind::Write, 1, 257),
        command(Kind::Write, 2, 259),
        popa(1, (1, 0)),
        popa(2, (2, 0)),
        command(Kind::Bar, 1, 260),
        command(Kind::Bar, 2, 260),
    ];
    let load = |value| giving(at(command(Kind::Load, 1, 261), 1), value);
    let deliveries = [popb(1, (2, 1)), popb(2, (1, 1))];
    let early = [&first[..], &[load(0)], &deliveries].concat();
    let late = [&first[..], &deliveries, &[load(2)]].concat();
    let last = || cells(&[((1, 0), 1), ((1, 1), 2), ((2, 0), 2), ((2, 1), 1)]);
    let ring = Expected::Ring(vec![3, 4, 5]);
    [
        accepted("262-run-b", &program, &early, ring, last()),
        accepted("262-run-c", &program, &late, own_order(6), last()),
    ]
}

/// Every kind of item, each command by a transition from 256 on, with values or without: rank 1
/// stores 3 in cell 2, loads it, assigns, passes an assume, writes it to cell 4 of rank 2, reads
/// that back into cell 5, and both ranks take a bar.
fn every_kind(valued: bool) -> Row {
    let program = sparse(
        400,
        &[
            (256, store(2, 3)),
            (399, load(2)),
            (257, assign(6)),
            (300, assume(1)),
            (383, write(2, 2, 4)),
            (384, read(5, 2, 4)),
            (398, bar()),
        ],
    );
    let items = [
        at(command(Kind::Store, 1, 256), 2),
        at(command(Kind::Load, 1, 399), 2),
        command(Kind::Assign, 1, 257),
        command(Kind::Assume, 1, 300),
        command(Kind::Write, 1, 383),
        popa(1, (1, 2)),
        popb(1, (2, 4)),
        command(Kind::Read, 1, 384),
        popa(1, (2, 4)),
        popb(1, (1, 5)),
        command(Kind::Bar, 1, 398),
        command(Kind::Bar, 2, 398),
    ];
    let valued_item = |item: Item| match item.place {
        Some(_) if valued => giving(item, 3),
        _ => item,
    };
    let what = if valued {
        "with-values"
    } else {
        "without-values"
    };
    let last = cells(&[((1, 2), 3), ((2, 4), 3), ((1, 5), 3)]);
    let what = format!("400-every-kind-{what}");
    accepted(&what, &program, &items.map(valued_item), own_order(7), last)
}

/// Transitions whose numbers have the same low byte, both of them stores: each does its own.
fn twins() -> Vec<Row> {
    let program = sparse(400, &[(143, store(0, 1)), (399, store(1, 2))]);
    let low = at(command(Kind::Store, 1, 143), 0);
    let high = at(command(Kind::Store, 1, 399), 1);
    let of = |what, items: &[Item], stored: &[((usize, usize), u16)]| {
        accepted(what, &program, items, own_order(items.len()), cells(stored))
    };
    vec![
        of("400-takes-143", &[low], &[((1, 0), 1)]),
        of("400-takes-399", &[high], &[((1, 1), 2)]),
        of(
            "400-takes-399-143",
            &[high, low],
            &[((1, 0), 1), ((1, 1), 2)],
        ),
    ]
}

/// 400 transitions through 64 states, each taken: transition n stores n in cell n modulo 64.
fn each_taken() -> Row {
    let transitions = (0..400).map(|number: usize| {
        let mut transition = store((number % 64) as u16, number as u16);
        (transition.from, transition.to) = (number % 64, (number + 1) % 64);
        transition
    });
    let program = Program {
        ranks: 1,
        cells: 64,
        states: 64,
        transitions: transitions.collect(),
        ..sparse(0, &[])
    };
    let items: Vec<Item> = (0..400)
        .map(|number| at(command(Kind::Store, 1, number), number % 64))
        .collect();
    // What the last 64 store stays, 336 to 399; the first cells have 384 to 399, as 384 is 6 × 64.
    let last = (384..400).chain(336..384).collect();
    accepted("400-each-taken", &program, &items, own_order(400), last)
}
