//! Runs from readings: runs a to e of document 01, stores over readings, another order than the
//! record's own, and rows of all ranks.

use super::build::{by_register, constant, machine, rank_bytes, register, start};
use super::{accepted, refused};
use crate::corpus::Expected;
use crate::expression::{Expression, Operator};
use crate::families::parts::{
    assign, assume, at, bar, command, giving, load, popa, popb, store, with_operand, write,
};
use crate::families::row::{own_order, Row};
use crate::program::{Kind, Program};
use crate::record::Item;

/// All rows.
pub fn rows() -> Vec<Row> {
    let parts = [
        neighbours(),
        alone(),
        overwritten(),
        orders(),
        rows_of_all_ranks(),
    ];
    parts.into_iter().flatten().collect()
}

/// The neighbour program.
fn neighbour_program() -> Program {
    let neighbour = Expression::binary(Operator::Difference, constant(3), Expression::OwnRank);
    let transitions = [
        with_operand(store(0, 0), 1, Expression::OwnRank),
        with_operand(write(0, 0, 1), 1, neighbour),
        bar(),
        load(1),
    ];
    machine(2, 2, &transitions)
}

/// The items of run b, whose load gives this value, or of run c with the load last.
fn neighbour_items(early: bool, loaded: u16) -> Vec<Item> {
    let mut items = vec![
        at(command(Kind::Store, 1, 0), 0),
        at(command(Kind::Store, 2, 0), 0),
        command(Kind::Write, 1, 1),
        command(Kind::Write, 2, 1),
        popa(1, (1, 0)),
        popa(2, (2, 0)),
        command(Kind::Bar, 1, 2),
        command(Kind::Bar, 2, 2),
        popb(1, (2, 1)),
        popb(2, (1, 1)),
    ];
    let load = giving(at(command(Kind::Load, 1, 3), 1), loaded);
    items.insert(if early { 8 } else { 10 }, load);
    items
}

/// Runs b and c from readings. The early load sees the reading of cell 1, and the late one what was
/// delivered. What run c ends with is the start of another run b, which ends with the same.
fn neighbours() -> Vec<Row> {
    let program = neighbour_program();
    let readings = start(&[&[(0, 30), (1, 7)], &[(1, 9)]]);
    let last = [((1, 0), 1), ((1, 1), 2), ((2, 0), 2), ((2, 1), 1)];
    let carried = start(&[&[(0, 1), (1, 2)], &[(0, 2), (1, 1)]]);
    let ring = || Expected::Ring(vec![3, 4, 5]);
    let run_b = |what: &str, start: &[u8], loaded| {
        let items = neighbour_items(true, loaded);
        let lines = "ring 3\ngroup 3 write 2 3\ngroup 4 bar 0 6\ngroup 5 load 1 8\n\
            cell 1 0 1\ncell 1 1 2\ncell 2 0 2\ncell 2 1 1\n";
        accepted(what, &program, &items, start.to_vec(), ring(), &last)
            .with_slip(vec![3, 0, 4, 0, 3])
            .with_listing(lines.into())
    };
    let not_loaded = |what: &str, start: &[u8], loaded| {
        let items = neighbour_items(true, loaded);
        refused(what, &program, &items, start.to_vec(), 11, 8)
    };
    let run_c = |what: &str, start: &[u8]| {
        let items = neighbour_items(false, 2);
        accepted(what, &program, &items, start.to_vec(), own_order(6), &last)
            .with_slip(vec![3, 0, 4, 0, 3])
    };
    vec![
        run_b("run-b", &readings, 7),
        not_loaded("run-b-as-from-0", &readings, 0),
        not_loaded("run-b-other-ranks-reading", &readings, 9),
        not_loaded("run-b-from-no-bytes", &[], 7),
        not_loaded("run-b-from-the-zero-start", &[0; 16], 7),
        run_b("run-b-from-no-bytes", &[], 0),
        run_b("run-b-from-the-zero-start", &[0; 16], 0),
        run_c("run-c", &readings),
        run_c("run-c-from-the-zero-start", &[0; 16]),
        run_b("run-b-after-run-c", &carried, 2),
        not_loaded("run-b-not-after-run-c", &carried, 0),
        run_c("run-c-after-run-c", &carried),
    ]
}

/// Run a of the neighbour program, and a copy of a cell onto itself, run d: the readings stay.
fn alone() -> Vec<Row> {
    let readings = start(&[&[(1, 7)], &[(0, 9)]]);
    let values = [((1, 1), 7), ((2, 0), 9)];
    let copy = machine(1, 2, &[write(0, 1, 0)]);
    let copied = [
        command(Kind::Write, 1, 0),
        giving(popa(1, (1, 0)), 65_535),
        giving(popb(1, (1, 0)), 65_535),
    ];
    vec![
        accepted(
            "run-a",
            &neighbour_program(),
            &[],
            readings,
            own_order(0),
            &values,
        )
        .with_listing("order 0\ncell 1 1 7\ncell 2 0 9\n".into()),
        accepted(
            "run-d",
            &copy,
            &copied,
            rank_bytes(&[(0, 65_535)]),
            own_order(1),
            &[((1, 0), 65_535)],
        )
        .with_slip(vec![1, 0, 1])
        .with_listing("order 1\ngroup 0 write 1 0\ncell 1 0 65535\n".into()),
        refused("run-d-from-no-bytes", &copy, &copied, Vec::new(), 11, 1),
    ]
}

/// Stores over readings, of 0 too; readings beside them stay. Registers start at 0 all the same.
fn overwritten() -> Vec<Row> {
    let program = machine(
        1,
        3,
        &[store(0, 0), store(1, 8), by_register(store(2, 0), 1)],
    );
    let readings = rank_bytes(&[(0, 4), (1, 5), (2, 6)]);
    let row = |what: &str, items: &[Item], values: &[((usize, usize), u16)], lines: &str| {
        let order = own_order(items.len());
        accepted(what, &program, items, readings.clone(), order, values)
            .with_listing(format!("order {}\n{lines}", items.len()))
    };
    let clear = giving(at(command(Kind::Store, 1, 0), 0), 0);
    let change = giving(at(command(Kind::Store, 1, 1), 1), 8);
    let of_register = giving(at(command(Kind::Store, 1, 2), 2), 0);
    vec![
        row(
            "cleared",
            &[clear],
            &[((1, 1), 5), ((1, 2), 6)],
            "group 0 store 1 0\ncell 1 1 5\ncell 1 2 6\n",
        ),
        row(
            "changed",
            &[change],
            &[((1, 0), 4), ((1, 1), 8), ((1, 2), 6)],
            "group 0 store 1 0\ncell 1 0 4\ncell 1 1 8\ncell 1 2 6\n",
        ),
        row(
            "all-changed",
            &[clear, change, of_register],
            &[((1, 1), 8)],
            "group 0 store 1 0\ngroup 1 store 1 1\ngroup 2 store 1 2\ncell 1 1 8\n",
        ),
    ]
}

/// A ring and an order other than the record's own, which readings decide the values of.
fn orders() -> Vec<Row> {
    let overtaken = machine(1, 2, &[write(0, 1, 1), store(0, 3)]);
    let ring_items = [
        command(Kind::Write, 1, 0),
        at(command(Kind::Store, 1, 1), 0),
        giving(popa(1, (1, 0)), 3),
        giving(popb(1, (1, 1)), 3),
    ];
    // rank 1 writes its reading to cell 1 of rank 2, which loads that cell before the delivery and
    // then assumes that it was 9
    let is_9 = Expression::binary(Operator::Equal, register(), constant(9));
    let seen = machine(
        2,
        2,
        &[write(0, 2, 1), load(1), with_operand(assume(0), 0, is_9)],
    );
    let seen_items = [
        command(Kind::Write, 1, 0),
        giving(popa(1, (1, 0)), 7),
        giving(at(command(Kind::Load, 2, 1), 1), 9),
        command(Kind::Assume, 2, 2),
        giving(popb(1, (2, 1)), 7),
    ];
    let from = |value| start(&[&[(0, 7)], &[(1, value)]]);
    vec![
        accepted(
            "run-e",
            &overtaken,
            &ring_items,
            rank_bytes(&[(0, 40), (1, 41)]),
            Expected::Ring(vec![0, 1]),
            &[((1, 0), 3), ((1, 1), 3)],
        )
        .with_slip(vec![1, 0, 2])
        .with_listing(
            "ring 2\ngroup 0 write 1 0\ngroup 1 store 1 1\ncell 1 0 3\ncell 1 1 3\n".into(),
        ),
        accepted(
            "load-first",
            &seen,
            &seen_items,
            from(9),
            Expected::Order(vec![1, 0, 2]),
            &[((1, 0), 7), ((2, 1), 7)],
        )
        .with_slip(vec![3, 0, 1, 0, 2])
        .with_listing(
            "order 3\ngroup 1 load 2 2\ngroup 0 write 1 0\ngroup 2 assume 2 3\n\
            cell 1 0 7\ncell 2 1 7\n"
                .into(),
        ),
        refused("load-first-other", &seen, &seen_items, from(8), 11, 2),
        refused(
            "load-first-from-no-bytes",
            &seen,
            &seen_items,
            Vec::new(),
            11,
            1,
        ),
    ]
}

/// Every rank has a reading of its own in its last cell, loads it, and goes through a row; the row
/// is the last group.
fn rows_of_all_ranks() -> Vec<Row> {
    let mut rows = Vec::new();
    for (ranks, cells) in [(8, 8), (9, 9), (16, 64)] {
        let last = cells - 1;
        let program = machine(ranks, cells, &[load(last as u16), bar(), assign(1)]);
        let reading = |rank: usize| 1_000 + rank as u16;
        let mut bytes = Vec::new();
        let (mut items, mut values) = (Vec::new(), Vec::new());
        for rank in 1..=ranks {
            bytes.extend(rank_bytes(&[(last, reading(rank))]));
            items.push(giving(
                at(command(Kind::Load, rank, 0), last),
                reading(rank),
            ));
            values.push(((rank, last), reading(rank)));
        }
        items.extend((1..=ranks).map(|rank| command(Kind::Bar, rank, 1)));
        let what = format!("row-of-{ranks}");
        let order = own_order(ranks + 1);
        rows.push(accepted(
            &what,
            &program,
            &items,
            bytes.clone(),
            order,
            &values,
        ));
        // the readings of each rank at the next one
        bytes.rotate_right(10);
        let what = format!("row-of-{ranks}-readings-moved");
        rows.push(refused(&what, &program, &items, bytes, 11, 0));
    }
    rows
}
