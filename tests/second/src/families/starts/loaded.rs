//! What readings are good for in a run: loads, transfers, given values, assumes, and expressions over
//! what was loaded, each accepted from one start and refused from another.

use super::build::{by_register, constant, machine, rank_bytes, register, start, Readings};
use super::{accepted, refused};
use crate::expression::{Expression, Operator};
use crate::families::parts::{
    assume, at, command, giving, load, popa, popb, read, store, with_operand, write,
};
use crate::families::row::{own_order, Row};
use crate::program::{Kind, Transition};

/// All rows.
pub fn rows() -> Vec<Row> {
    let parts = [loads(), transfers(), conditions(), expressions()];
    parts.into_iter().flatten().collect()
}

/// Loads of a listed cell and of unlisted ones, giving the reading, 0 or another value, by each
/// rank of several.
fn loads() -> Vec<Row> {
    let program = machine(2, 64, &[load(0), load(5), load(63)]);
    let parts: [Readings; 2] = [&[(0, 11), (63, 13)], &[(5, 17)]];
    let values = [((1, 0), 11), ((1, 63), 13), ((2, 5), 17)];
    let readings = start(&parts);
    let cells = [0, 5, 63];
    let held = |rank, cell| {
        let found = values.iter().find(|&&(place, _)| place == (rank, cell));
        found.map_or(0, |&(_, value)| value)
    };
    let mut rows = Vec::new();
    for rank in [1, 2] {
        for (number, cell) in cells.into_iter().enumerate() {
            let what = format!("load-{cell}-by-{rank}");
            let item = at(command(Kind::Load, rank, number), cell);
            let right = giving(item, held(rank, cell));
            rows.push(accepted(
                &what,
                &program,
                &[right],
                readings.clone(),
                own_order(1),
                &values,
            ));
            let other = if held(rank, cell) == 0 { 11 } else { 0 };
            let wrong = giving(item, other);
            rows.push(refused(&what, &program, &[wrong], readings.clone(), 11, 0));
        }
    }
    let items = [
        giving(at(command(Kind::Load, 2, 1), 5), 17),
        at(command(Kind::Load, 1, 2), 63),
        giving(at(command(Kind::Load, 1, 0), 0), 11),
        giving(at(command(Kind::Load, 2, 0), 0), 0),
    ];
    let lines = "order 4\ngroup 0 load 2 0\ngroup 1 load 1 1\ngroup 2 load 1 2\n\
        group 3 load 2 3\ncell 1 0 11\ncell 1 63 13\ncell 2 5 17\n";
    rows.push(
        accepted("loads", &program, &items, readings, own_order(4), &values)
            .with_slip(vec![3, 0, 2, 0, 2])
            .with_listing(lines.into()),
    );
    rows
}

/// Transfers that carry a reading, by a write and by a read, over another reading; and given values
/// of the fetch and of the delivery.
fn transfers() -> Vec<Row> {
    let readings = start(&[&[(0, 21), (1, 22)], &[(0, 31)]]);
    let writing = machine(2, 2, &[write(0, 2, 0)]);
    let reading = machine(2, 2, &[read(1, 2, 0)]);
    let written = [((1, 0), 21), ((1, 1), 22), ((2, 0), 21)];
    let fetched = [((1, 0), 21), ((1, 1), 31), ((2, 0), 31)];
    let write_items = |[fetch, delivery]: [u16; 2]| {
        [
            command(Kind::Write, 1, 0),
            giving(popa(1, (1, 0)), fetch),
            giving(popb(1, (2, 0)), delivery),
        ]
    };
    let read_items = |[fetch, delivery]: [u16; 2]| {
        [
            command(Kind::Read, 1, 0),
            giving(popa(1, (2, 0)), fetch),
            giving(popb(1, (1, 1)), delivery),
        ]
    };
    let order = || own_order(1);
    let from = || readings.clone();
    vec![
        accepted(
            "write",
            &writing,
            &write_items([21, 21]),
            from(),
            order(),
            &written,
        )
        .with_slip(vec![1, 0, 1])
        .with_listing("order 1\ngroup 0 write 1 0\ncell 1 0 21\ncell 1 1 22\ncell 2 0 21\n".into()),
        refused(
            "fetch-as-from-0",
            &writing,
            &write_items([0, 21]),
            from(),
            11,
            1,
        ),
        refused(
            "delivery-as-from-0",
            &writing,
            &write_items([21, 0]),
            from(),
            11,
            2,
        ),
        refused(
            "delivery-of-what-lay-there",
            &writing,
            &write_items([21, 31]),
            from(),
            11,
            2,
        ),
        refused(
            "fetch-from-no-bytes",
            &writing,
            &write_items([21, 21]),
            Vec::new(),
            11,
            1,
        ),
        accepted(
            "read",
            &reading,
            &read_items([31, 31]),
            from(),
            order(),
            &fetched,
        ),
        refused(
            "read-of-the-own-rank",
            &reading,
            &read_items([21, 31]),
            from(),
            11,
            1,
        ),
        accepted(
            "write-of-0-over-a-reading",
            &writing,
            &write_items([0, 0]),
            start(&[&[(1, 22)], &[(0, 31)]]),
            order(),
            &[((1, 1), 22)],
        )
        .with_listing("order 1\ngroup 0 write 1 0\ncell 1 1 22\n".into()),
    ]
}

/// A load and an assume: of the register, of what it is, and of what it is not.
fn conditions() -> Vec<Row> {
    let is = |value| Expression::binary(Operator::Equal, register(), constant(value));
    let program =
        |condition: Expression| machine(1, 2, &[load(1), with_operand(assume(0), 0, condition)]);
    let items = [
        at(command(Kind::Load, 1, 0), 1),
        command(Kind::Assume, 1, 1),
    ];
    let from = |value| rank_bytes(&[(1, value)]);
    let taken = |what: &str, condition, value| {
        let program = program(condition);
        accepted(
            what,
            &program,
            &items,
            from(value),
            own_order(2),
            &[((1, 1), value)],
        )
    };
    let not_taken = |what: &str, condition, start: Vec<u8>| {
        refused(what, &program(condition), &items, start, 9, 1)
    };
    vec![
        taken("assume-reading", register(), 1),
        taken("assume-reading-65535", register(), 65_535),
        not_taken("assume-reading-from-no-bytes", register(), Vec::new()),
        not_taken(
            "assume-reading-of-another-cell",
            register(),
            rank_bytes(&[(0, 1)]),
        ),
        taken("assume-equal", is(300), 300),
        not_taken("assume-equal-other", is(300), from(301)),
        not_taken(
            "assume-equal-bytes-exchanged",
            is(300),
            from(300u16.swap_bytes()),
        ),
        not_taken("assume-0-from-a-reading", is(0), from(5)),
        accepted(
            "assume-0-from-no-bytes",
            &program(is(0)),
            &items,
            Vec::new(),
            own_order(2),
            &[],
        ),
        accepted(
            "assume-0-beside-a-reading",
            &program(is(0)),
            &items,
            rank_bytes(&[(0, 5)]),
            own_order(2),
            &[((1, 0), 5)],
        ),
    ]
}

/// What was loaded as a cell, a rank, a queue and an operand: inside its range from one start, and
/// outside or without a value from another.
fn expressions() -> Vec<Row> {
    let loaded = || at(command(Kind::Load, 1, 0), 1);
    let program = |used: Transition| machine(2, 3, &[load(1), used]);
    let from = |value| start(&[&[(1, value)], &[]]);
    let stored = program(by_register(store(0, 9), 0));
    let store_items = |cell| [loaded(), at(command(Kind::Store, 1, 1), cell)];
    let to_rank = program(by_register(write(0, 0, 1), 1));
    let write_items = |rank| {
        [
            loaded(),
            command(Kind::Write, 1, 1),
            popa(1, (1, 0)),
            popb(1, (rank, 1)),
        ]
    };
    let on_queue = program(by_register(write(0, 2, 1), 3));
    let sum = |operator, other| {
        let value = Expression::binary(operator, register(), constant(other));
        program(with_operand(store(0, 0), 1, value))
    };
    let summed = |what: &str, (operator, other): (Operator, u16), value, result| {
        let values = [((1, 0), result), ((1, 1), value)];
        let program = sum(operator, other);
        accepted(
            what,
            &program,
            &store_items(0),
            from(value),
            own_order(2),
            &values,
        )
    };
    let passing = |what: &str, (operator, other): (Operator, u16), start: Vec<u8>| {
        refused(what, &sum(operator, other), &store_items(0), start, 18, 1)
    };
    let less_one = Expression::binary(Operator::Difference, register(), constant(1));
    let reduced = program(with_operand(store(0, 0), 1, less_one));
    vec![
        accepted(
            "cell-by-reading",
            &stored,
            &store_items(2),
            from(2),
            own_order(2),
            &[((1, 1), 2), ((1, 2), 9)],
        ),
        refused(
            "cell-by-reading-outside",
            &stored,
            &store_items(2),
            from(3),
            8,
            1,
        ),
        refused(
            "cell-by-reading-elsewhere",
            &stored,
            &store_items(2),
            from(1),
            11,
            1,
        ),
        refused(
            "cell-by-reading-from-no-bytes",
            &stored,
            &store_items(2),
            Vec::new(),
            11,
            1,
        ),
        accepted(
            "rank-by-reading",
            &to_rank,
            &write_items(2),
            from(2),
            own_order(2),
            &[((1, 1), 2)],
        ),
        refused(
            "rank-by-reading-outside",
            &to_rank,
            &write_items(2),
            from(3),
            8,
            1,
        ),
        refused(
            "rank-0-from-no-bytes",
            &to_rank,
            &write_items(2),
            Vec::new(),
            8,
            1,
        ),
        refused(
            "rank-by-reading-elsewhere",
            &to_rank,
            &write_items(2),
            from(1),
            11,
            3,
        ),
        refused(
            "queue-by-reading-outside",
            &on_queue,
            &write_items(2),
            from(1),
            8,
            1,
        ),
        accepted(
            "queue-0-from-no-bytes",
            &on_queue,
            &write_items(2),
            Vec::new(),
            own_order(2),
            &[],
        ),
        summed("sum-at-the-edge", (Operator::Sum, 1), 65_534, 65_535),
        passing("sum-passes", (Operator::Sum, 1), from(65_535)),
        summed("product-at-the-edge", (Operator::Product, 257), 255, 65_535),
        passing("product-passes", (Operator::Product, 257), from(256)),
        refused(
            "difference-from-no-bytes",
            &reduced,
            &store_items(0),
            Vec::new(),
            18,
            1,
        ),
        accepted(
            "difference-of-a-reading",
            &reduced,
            &store_items(0),
            from(1),
            own_order(2),
            &[((1, 1), 1)],
        ),
    ]
}
