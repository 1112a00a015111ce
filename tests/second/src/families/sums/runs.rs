//! Orders and rings of runs whose values come to the edges, with slips and listings; and the same
//! programs where other contents pass the range.

use super::build::{
    assign_of, assume_of, constant, difference, equal, full_product, full_sum, machine, product,
    register, store_of, sum,
};
use super::{accepted, own_order, without_value};
use crate::corpus::Expected;
use crate::expression::Expression;
use crate::expression::Expression::OwnRank;
use crate::families::parts::{
    at, bar, command, giving, load, naming, popa, popb, read, store, with_operand, write,
};
use crate::families::row::Row;
use crate::program::{Kind, Program};
use crate::record::Item;

/// All runs.
pub fn rows() -> Vec<Row> {
    let mut rows = neighbours();
    rows.extend([overwritten(), other_order(), other_order_alone()]);
    rows.extend(read_and_reduced());
    rows.extend(overtaken());
    rows
}

/// The neighbour program with 65,533 + own stored, so 65,534 and 65,535, and after the load an
/// assign of this to register 0.
fn neighbour_program(last: Expression) -> Program {
    let neighbour = difference(constant(3), OwnRank);
    let transitions = [
        store_of(sum(constant(65_533), OwnRank)),
        with_operand(write(0, 0, 1), 1, neighbour),
        bar(),
        load(1),
        assign_of(last),
    ];
    machine(2, &transitions)
}

/// The items of the neighbour program: both ranks store, write and fetch, and come to the row. Rank
/// 1 then loads, before the deliveries or after, and assigns.
fn neighbour_items(early: bool) -> Vec<Item> {
    let mut items = vec![
        giving(at(command(Kind::Store, 1, 0), 0), 65_534),
        giving(at(command(Kind::Store, 2, 0), 0), 65_535),
        command(Kind::Write, 1, 1),
        command(Kind::Write, 2, 1),
        popa(1, (1, 0)),
        popa(2, (2, 0)),
        command(Kind::Bar, 1, 2),
        command(Kind::Bar, 2, 2),
    ];
    let pops = [
        giving(popb(1, (2, 1)), 65_534),
        giving(popb(2, (1, 1)), 65_535),
    ];
    let load = at(command(Kind::Load, 1, 3), 1);
    let assigned = command(Kind::Assign, 1, 4);
    if early {
        items.extend([giving(load, 0), assigned]);
        items.extend(pops);
    } else {
        items.extend(pops);
        items.extend([giving(load, 65_535), assigned]);
    }
    items
}

/// Runs b and c. Groups: 0 and 1 the stores, 2 and 3 the writes, 4 the row, 5 the load, 6 the
/// assign. The early load sees 0, to which 65,535 can be added and from which it cannot be taken;
/// the late one sees 65,535, the other way round.
fn neighbours() -> Vec<Row> {
    let up = neighbour_program(sum(register(), constant(65_535)));
    let down = neighbour_program(difference(register(), constant(65_535)));
    let cells = [
        ((1, 0), 65_534),
        ((1, 1), 65_535),
        ((2, 0), 65_535),
        ((2, 1), 65_534),
    ];
    let ring = Expected::Ring(vec![3, 4, 5]);
    let lines = "cell 1 0 65534\ncell 1 1 65535\ncell 2 0 65535\ncell 2 1 65534\n";
    let ring_lines = "ring 3\ngroup 3 write 2 3\ngroup 4 bar 0 6\ngroup 5 load 1 8\n";
    let order_lines = "order 7\ngroup 0 store 1 0\ngroup 1 store 2 1\ngroup 2 write 1 2\n\
        group 3 write 2 3\ngroup 4 bar 0 6\ngroup 5 load 1 10\ngroup 6 assign 1 11\n";
    let slip = vec![3, 0, 5, 0, 3];
    let (early, late) = (neighbour_items(true), neighbour_items(false));
    vec![
        accepted("early-up", &up, &early, ring, &cells)
            .with_slip(slip.clone())
            .with_listing(format!("{ring_lines}{lines}")),
        without_value("late-up", &up, &late, 11),
        accepted("late-down", &down, &late, own_order(7), &cells)
            .with_slip(slip)
            .with_listing(format!("{order_lines}{lines}")),
        without_value("early-down", &down, &early, 9),
    ]
}

/// Run e with 255 × 257 stored while the write waits: a ring of the two.
fn overwritten() -> Row {
    let program = machine(1, &[write(0, 1, 1), store_of(full_product())]);
    let items = [
        command(Kind::Write, 1, 0),
        giving(at(command(Kind::Store, 1, 1), 0), 65_535),
        giving(popa(1, (1, 0)), 65_535),
        giving(popb(1, (1, 1)), 65_535),
    ];
    let cells = [((1, 0), 65_535), ((1, 1), 65_535)];
    let lines = "ring 2\ngroup 0 write 1 0\ngroup 1 store 1 1\ncell 1 0 65535\ncell 1 1 65535\n";
    accepted(
        "overwritten",
        &program,
        &items,
        Expected::Ring(vec![0, 1]),
        &cells,
    )
    .with_slip(vec![1, 0, 2])
    .with_listing(lines.into())
}

/// Rank 1 writes 65,535 to rank 2, which loads before the delivery and assumes that the register
/// less 0 is 0. Groups: 0 the store, 1 the write, 2 the load, 3 the assume. Arrows: 0 to 1, 2 to 3
/// by program order, 2 to 1 since the load comes before the delivery.
fn other_order() -> Row {
    let none = equal(difference(register(), constant(0)), constant(0));
    let transitions = [
        store_of(full_sum()),
        write(0, 2, 1),
        load(1),
        assume_of(none),
    ];
    let program = machine(2, &transitions);
    let items = [
        giving(at(command(Kind::Store, 1, 0), 0), 65_535),
        command(Kind::Write, 1, 1),
        at(command(Kind::Load, 2, 2), 1),
        command(Kind::Assume, 2, 3),
        popa(1, (1, 0)),
        giving(popb(1, (2, 1)), 65_535),
    ];
    let cells = [((1, 0), 65_535), ((2, 1), 65_535)];
    let lines = "order 4\ngroup 0 store 1 0\ngroup 2 load 2 2\ngroup 1 write 1 1\n\
        group 3 assume 2 3\ncell 1 0 65535\ncell 2 1 65535\n";
    let order = Expected::Order(vec![0, 2, 1, 3]);
    accepted("other-order", &program, &items, order, &cells)
        .with_slip(vec![3, 0, 2, 0, 2])
        .with_listing(lines.into())
}

/// The same without the store, so that the load comes first of all: groups 0 the write, 1 the load
/// and 2 an assign of 65,535 − 0 to the register, arrows 1 to 0 and 1 to 2.
fn other_order_alone() -> Row {
    let all = assign_of(difference(constant(65_535), register()));
    let program = machine(2, &[write(0, 2, 1), load(1), all]);
    let items = [
        command(Kind::Write, 1, 0),
        at(command(Kind::Load, 2, 1), 1),
        command(Kind::Assign, 2, 2),
        popa(1, (1, 0)),
        popb(1, (2, 1)),
    ];
    accepted(
        "load-first",
        &program,
        &items,
        Expected::Order(vec![1, 0, 2]),
        &[],
    )
    .with_slip(vec![3, 0, 1, 0, 2])
    .with_listing("order 3\ngroup 1 load 2 1\ngroup 0 write 1 0\ngroup 2 assign 2 2\n".into())
}

/// Rank 2 stores 255 × 257, rank 1 reads it into its cell 1, loads it, and stores what is left of
/// it after this is taken away.
fn read_and_reduced() -> Vec<Row> {
    let program = |less| {
        let left = store_of(difference(register(), constant(less)));
        machine(2, &[store_of(full_product()), read(1, 2, 0), load(1), left])
    };
    let items = [
        giving(at(command(Kind::Store, 2, 0), 0), 65_535),
        command(Kind::Read, 1, 1),
        giving(popa(1, (2, 0)), 65_535),
        giving(popb(1, (1, 1)), 65_535),
        giving(at(command(Kind::Load, 1, 2), 1), 65_535),
        at(command(Kind::Store, 1, 3), 0),
    ];
    let cells = |left| [((1, 0), left), ((1, 1), 65_535), ((2, 0), 65_535)];
    let twice = |factor| {
        let more = store_of(product(register(), constant(factor)));
        machine(2, &[store_of(full_product()), read(1, 2, 0), load(1), more])
    };
    vec![
        accepted(
            "reduced-to-0",
            &program(65_535),
            &items,
            own_order(4),
            &cells(0),
        ),
        accepted(
            "reduced-to-1",
            &program(65_534),
            &items,
            own_order(4),
            &cells(1),
        ),
        accepted("kept", &twice(1), &items, own_order(4), &cells(65_535)),
        without_value("doubled", &twice(2), &items, 5),
    ]
}

/// Rank 1 reads into its cell 1 from cell 0 of rank 2, where 65,535 lies, and of rank 3, where 0
/// lies. Delivered last is what was read first, and that is loaded: 65,535, to which nothing can be
/// added. Groups: 0 the store, 1 and 2 the reads, 3 the load, 4 the store of the sum. Program order
/// leads from 1 to 2, the deliveries from 2 to 1.
fn overtaken() -> Vec<Row> {
    let program = |more| {
        let sum = store_of(sum(register(), constant(more)));
        machine(
            3,
            &[store(0, 65_535), read(1, 2, 0), read(1, 3, 0), load(1), sum],
        )
    };
    let items = [
        at(command(Kind::Store, 2, 0), 0),
        command(Kind::Read, 1, 1),
        command(Kind::Read, 1, 2),
        naming(popa(1, (3, 0)), 3),
        naming(popb(1, (1, 1)), 3),
        popa(1, (2, 0)),
        giving(popb(1, (1, 1)), 65_535),
        giving(at(command(Kind::Load, 1, 3), 1), 65_535),
        at(command(Kind::Store, 1, 4), 0),
    ];
    let cells = [((1, 0), 65_535), ((1, 1), 65_535), ((2, 0), 65_535)];
    vec![
        accepted(
            "overtaken",
            &program(0),
            &items,
            Expected::Ring(vec![1, 2]),
            &cells,
        ),
        without_value("overtaken", &program(1), &items, 8),
    ]
}
