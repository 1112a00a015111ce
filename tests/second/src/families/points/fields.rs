//! Numbers of transitions about the limits of one byte and at T, and remote ranks above 8.

use super::{accepted, refused, FAMILY};
use crate::expression::Expression::{Constant, RankCount};
use crate::families::base::several;
use crate::families::parts::{
    assign, at, command, giving, naming, popa, popb, read, store, with_operand, write,
};
use crate::families::row::{own_order, Row};
use crate::families::transitions::build::sparse;
use crate::program::{Kind, Program, Transition};
use crate::record::Item;

/// All rows.
pub fn rows() -> Vec<Row> {
    let mut rows = taken();
    rows.extend(not_there());
    for remote in [9, 16] {
        rows.extend(remote_ranks(remote));
    }
    rows.extend(rank_17());
    rows
}

/// A transition of this number in a program of so many, taken by a store of the number, which the
/// item gives.
fn taken() -> Vec<Row> {
    let row = |(number, size): (usize, usize)| {
        let value = number as u16;
        let program = sparse(size, &[(number, store(0, value))]);
        let item = giving(at(command(Kind::Store, 1, number), 0), value);
        let what = format!("transition-{number}-of-{size}");
        accepted(&what, &program, &[item], own_order(1), &[((1, 0), value)])
    };
    let numbers = [
        (128, 129),
        (200, 300),
        (255, 300),
        (256, 300),
        (257, 300),
        (299, 300),
        (300, 400),
        (399, 400),
    ];
    numbers.map(row).into()
}

/// T itself, which is no transition: 5 at its byte if it has one, and else at the high byte, behind
/// place and value of a store; and numbers with a high byte of 0. Once alone, and once behind an
/// assign of four bytes.
fn not_there() -> Vec<Row> {
    let mut rows = Vec::new();
    for (size, number) in [
        (129, &[129][..]),
        (256, &[0, 1]),
        (300, &[44, 1]),
        (400, &[144, 1]),
        (129, &[100, 0]),
        (300, &[200, 0]),
    ] {
        let program = sparse(size, &[(0, assign(1))]).to_bytes();
        let (low, high) = (number[0], &number[1..]);
        let high_bit = if high.is_empty() { 0 } else { 128 };
        let assigned = [&[3 | high_bit, 3, 1, low], high].concat();
        let stored = [&[59 | high_bit, 2, 1, low, 1, 0, 0, 0, 0], high].concat();
        // the count has two bytes; a low byte is the item's fourth, and a high byte its last
        let place = |item: &[u8]| 2 + if high.is_empty() { 3 } else { item.len() - 1 };
        let what = |how: &str| match high {
            [0] => format!("{how}-{low}-with-high-0-of-{size}"),
            _ => format!("{how}-{size}-of-{size}"),
        };
        let row = |how: &str, items: &[&[u8]], place| {
            let inputs = [program.clone(), several(items)];
            Row::refused(FAMILY, &what(how), inputs, 5, place)
        };
        rows.extend([
            row("assign", &[&assigned], place(&assigned)),
            row("store", &[&stored], place(&stored)),
        ]);
        if size == 300 {
            let behind = row("second", &[&[3, 3, 1, 0], &stored], 4 + place(&stored));
            rows.push(behind);
        }
    }
    rows
}

/// A program of sixteen ranks, of four cells each, with these transitions.
fn machine(transitions: &[Transition]) -> Program {
    Program {
        ranks: 16,
        cells: 4,
        registers: 1,
        queues: 1,
        states: 1,
        transitions: transitions.to_vec(),
    }
}

/// The items with the name in their pops.
fn all_naming(items: &[Item], remote: usize) -> Vec<Item> {
    let named = |&item: &Item| match item.act.pop() {
        Some(_) => naming(item, remote),
        None => item,
    };
    items.iter().map(named).collect()
}

/// A write of rank 2 to a rank, and a read from it, each of a 5 that is stored before; the pops name
/// it or do not.
fn remote_ranks(remote: usize) -> Vec<Row> {
    let rank = remote as u16;
    let program = machine(&[store(0, 5), write(0, rank, 1), read(1, rank, 0)]);
    let stored = |rank| at(command(Kind::Store, rank, 0), 0);
    let written = [
        stored(2),
        command(Kind::Write, 2, 1),
        giving(popa(2, (2, 0)), 5),
        giving(popb(2, (remote, 1)), 5),
    ];
    let read = [
        stored(remote),
        command(Kind::Read, 2, 2),
        giving(popa(2, (remote, 0)), 5),
        giving(popb(2, (2, 1)), 5),
    ];
    let mut rows = Vec::new();
    for (what, items, ends) in [
        ("write-to", written, [(2, 0), (remote, 1)]),
        ("read-from", read, [(remote, 0), (2, 1)]),
    ] {
        let values = ends.map(|end| (end, 5));
        let named = all_naming(&items, remote);
        for (how, items) in [("", &items[..]), ("-named", &named)] {
            let what = format!("{what}-{remote}-of-16{how}");
            rows.push(accepted(&what, &program, items, own_order(2), &values));
        }
    }
    rows
}

/// N is 16 as a remote rank, and N + 1 is none: 8 behind a write to rank 16; and no pop names 17, 5
/// at the byte, in front of which are the count, a write of four bytes, the pop's seven and, for a
/// popb, a popa of seven.
fn rank_17() -> Vec<Row> {
    let of = |rank| write(0, rank, 1);
    let to_n = with_operand(of(0), 1, RankCount);
    let to_17 = with_operand(of(0), 1, Constant(17));
    let program = machine(&[to_n, to_17, read(0, 17, 1)]);
    let done = [
        command(Kind::Write, 2, 0),
        popa(2, (2, 0)),
        popb(2, (16, 1)),
    ];
    let then = |item| [&done[..], &[item]].concat();
    let bytes = |items: &[&[u8]]| [program.to_bytes(), several(items)];
    let issued: &[u8] = &[3, 6, 2, 0];
    let fetched: &[u8] = &[29, 7, 2, 0, 2, 0, 0];
    let popa_17: &[u8] = &[93, 7, 2, 0, 2, 0, 0, 17];
    let popb_17: &[u8] = &[93, 8, 2, 0, 16, 0, 1, 17];
    vec![
        accepted("write-to-n-of-16", &program, &done, own_order(1), &[]),
        refused(
            "write-to-17-of-16",
            &program,
            &then(command(Kind::Write, 2, 1)),
            8,
            3,
        ),
        refused(
            "read-from-17-of-16",
            &program,
            &then(command(Kind::Read, 2, 2)),
            8,
            3,
        ),
        Row::refused(
            FAMILY,
            "popa-named-17-of-16",
            bytes(&[issued, popa_17]),
            5,
            13,
        ),
        Row::refused(
            FAMILY,
            "popb-named-17-of-16",
            bytes(&[issued, fetched, popb_17]),
            5,
            20,
        ),
    ]
}
