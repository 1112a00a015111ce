//! Expressions with a register, which come to the edge in the course of a run and pass it.

use super::build::{
    assign_of, assume_of, constant, difference, equal, machine, product, register, store_of, sum,
};
use super::{accepted, own_order, refused, without_value};
use crate::expression::Expression;
use crate::families::parts::{at, command, giving, load, with_operand, write};
use crate::families::parts::{popa, popb, store};
use crate::families::row::Row;
use crate::program::{Kind, Program};
use crate::record::Item;

/// All rows of registers.
pub fn rows() -> Vec<Row> {
    let mut rows = counters();
    rows.extend([turns(), long_count()]);
    rows.extend(own_registers());
    rows.extend(loaded());
    rows.extend(in_each_command());
    rows
}

/// The program of a counter of one rank: transition 0 assigns the first value to register 0, 1
/// assigns the next, and 2 stores it in cell 0.
fn counter(first: u16, next: Expression) -> Program {
    let store = store_of(register());
    machine(1, &[assign_of(constant(first)), assign_of(next), store])
}

/// A first value and so many next ones.
fn counted(times: usize) -> Vec<Item> {
    let mut items = vec![command(Kind::Assign, 1, 0)];
    items.extend(vec![command(Kind::Assign, 1, 1); times]);
    items
}

/// A counter that has the last value after so many steps, and no value at the step after that.
fn counts(what: &str, first: u16, next: Expression, times: usize, last: u16) -> Vec<Row> {
    let program = counter(first, next);
    let stored = giving(at(command(Kind::Store, 1, 2), 0), last);
    let items = [&counted(times)[..], &[stored]].concat();
    let answer = own_order(times + 2);
    let once_more = [&counted(times + 1)[..], &[stored]].concat();
    vec![
        accepted(what, &program, &items, answer, &[((1, 0), last)]),
        without_value(what, &program, &once_more, times + 1),
    ]
}

/// Counters that come to the edge and pass it.
fn counters() -> Vec<Row> {
    let number = constant;
    let parts = [
        counts("up", 65_533, sum(register(), number(1)), 2, 65_535),
        counts("up-by-all", 0, sum(number(65_535), register()), 1, 65_535),
        counts("down", 2, difference(register(), number(1)), 2, 0),
        counts(
            "down-from-all",
            65_535,
            difference(register(), number(65_535)),
            1,
            0,
        ),
        // 16, 256; 2, 4, 16, 256
        counts("square", 16, product(register(), register()), 1, 256),
        counts("square-of-2", 2, product(register(), register()), 3, 256),
        // 3, 9, 27, 81, 243, 729, 2,187, 6,561, 19,683, 59,049
        counts("times-3", 3, product(number(3), register()), 9, 59_049),
        // 32,768 is the sixteenth
        counts("double", 1, sum(register(), register()), 15, 32_768),
        // 255, 65,535
        counts(
            "times-257",
            255,
            product(register(), number(257)),
            1,
            65_535,
        ),
    ];
    parts.into_iter().flatten().collect()
}

/// 65,535 less the register, again and again: 65,535 and 0 in turn, and always a value.
fn turns() -> Row {
    let program = counter(0, difference(constant(65_535), register()));
    let stored = giving(at(command(Kind::Store, 1, 2), 0), 65_535);
    let items = [&counted(5)[..], &[stored]].concat();
    accepted("turns", &program, &items, own_order(7), &[((1, 0), 65_535)])
}

/// Steps of 218 from 1 on: 1 + 218 × 300 is 65,401, and the step after that passes the range, at
/// item 301.
fn long_count() -> Row {
    let program = counter(1, sum(register(), constant(218)));
    without_value("item-301", &program, &counted(302), 301)
}

/// Each rank has registers of its own: where rank 1 has 65,535, rank 2 has 0.
fn own_registers() -> Vec<Row> {
    let transitions = [
        assign_of(constant(65_535)),
        store_of(sum(register(), constant(1))),
        store_of(difference(register(), constant(1))),
    ];
    let program = machine(2, &transitions);
    let assigned = command(Kind::Assign, 1, 0);
    let up = |rank| at(command(Kind::Store, rank, 1), 0);
    let down = |rank| at(command(Kind::Store, rank, 2), 0);
    let cells = [((1, 0), 65_534), ((2, 0), 1)];
    let fine = [assigned, up(2), down(1)];
    vec![
        accepted("own-registers", &program, &fine, own_order(3), &cells),
        without_value("own-register-up", &program, &[assigned, up(2), up(1)], 2),
        without_value("other-register-down", &program, &[assigned, down(2)], 1),
        without_value("register-at-start-down", &program, &[down(1)], 0),
    ]
}

/// A register that takes 65,535 from a cell, or 0 if the delivery there comes later: rank 1 stores
/// 65,535 and writes it to cell 1 of rank 2, which loads that cell and adds or takes 1.
fn loaded() -> Vec<Row> {
    let transitions = [
        store(0, 65_535),
        write(0, 2, 1),
        load(1),
        store_of(sum(register(), constant(1))),
        store_of(difference(register(), constant(1))),
    ];
    let program = machine(2, &transitions);
    let begin = [
        at(command(Kind::Store, 1, 0), 0),
        command(Kind::Write, 1, 1),
        popa(1, (1, 0)),
    ];
    let delivered = popb(1, (2, 1));
    let load = at(command(Kind::Load, 2, 2), 1);
    let up = at(command(Kind::Store, 2, 3), 0);
    let down = at(command(Kind::Store, 2, 4), 0);
    let late = |last| [&begin[..], &[delivered, load, last]].concat();
    let early = |last| [&begin[..], &[load, last, delivered]].concat();
    let full = [((1, 0), 65_535), ((2, 1), 65_535)];
    let with = |value| [&full[..], &[((2, 0), value)]].concat();
    // groups: the store of rank 1, the write, the load, the store of rank 2; where the load comes
    // before the delivery, it comes before the write
    let other = crate::corpus::Expected::Order(vec![0, 2, 1, 3]);
    vec![
        accepted(
            "delivered-down",
            &program,
            &late(down),
            own_order(4),
            &with(65_534),
        ),
        without_value("delivered-up", &program, &late(up), 5),
        accepted("not-delivered-up", &program, &early(up), other, &with(1)),
        without_value("not-delivered-down", &program, &early(down), 4),
    ]
}

/// A register of 65,535 in an expression of each command; the first item assigns it.
fn in_each_command() -> Vec<Row> {
    let up = || sum(register(), constant(1));
    let transitions = [
        assign_of(constant(65_535)),
        with_operand(load(0), 0, up()),
        with_operand(store(0, 5), 0, up()),
        assume_of(equal(up(), constant(0))),
        with_operand(write(0, 2, 1), 3, up()),
        with_operand(write(0, 2, 1), 1, product(register(), constant(2))),
        assume_of(equal(register(), constant(65_535))),
        assume_of(difference(register(), constant(65_535))),
    ];
    let program = machine(2, &transitions);
    let assigned = command(Kind::Assign, 1, 0);
    let of = |what: &str, item| {
        let what = format!("register-in-{what}");
        without_value(&what, &program, &[assigned, item], 1)
    };
    vec![
        of("load", at(command(Kind::Load, 1, 1), 0)),
        of("store-cell", at(command(Kind::Store, 1, 2), 0)),
        of("assume", command(Kind::Assume, 1, 3)),
        of("queue", command(Kind::Write, 1, 4)),
        of("remote-rank", command(Kind::Write, 1, 5)),
        accepted(
            "register-assumed",
            &program,
            &[assigned, command(Kind::Assume, 1, 6)],
            own_order(2),
            &[],
        ),
        refused(
            "register-assumed-less-all",
            &program,
            &[assigned, command(Kind::Assume, 1, 7)],
            9,
            1,
        ),
    ]
}
