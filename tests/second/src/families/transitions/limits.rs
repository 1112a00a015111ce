//! The longest program and the longest record that the format has now.

use super::build::{at, command, giving, load, popa, popb, sparse, store, CELLS, RANKS};
use super::{accepted, own_order};
use crate::expression::{Expression, Operator};
use crate::families::row::Row;
use crate::limits::{MAX_ITEMS, MAX_TRANSITIONS};
use crate::program::{Kind, Program, Transition};
use crate::record::Item;

/// All rows at the limits.
pub fn rows() -> Vec<Row> {
    let longest = longest_program();
    let items = [
        command(Kind::Write, 1, 399),
        popa(1, (1, 0)),
        popb(1, (2, 1)),
        command(Kind::Write, 2, 256),
        popa(2, (2, 0)),
        popb(2, (2, 1)),
        command(Kind::Write, 1, 0),
        popa(1, (1, 0)),
        popb(1, (2, 1)),
    ];
    let order = own_order(3);
    let last = vec![0; RANKS * CELLS];
    vec![
        accepted("400-longest-program", &longest, &items, order, last),
        longest_record(),
    ]
}

/// A sum of fifteen tokens with the most bytes, whose value is this.
fn longest_expression(value: u16) -> Expression {
    let mut sum = Expression::Constant(value);
    for _ in 0..7 {
        let zero = Expression::Constant(0);
        sum = Expression::binary(Operator::Sum, sum, zero);
    }
    sum
}

/// 400 writes, each operand of fifteen tokens: 4 bytes and four operands of 31, so 51,208 bytes.
fn longest_program() -> Program {
    let write = Transition {
        kind: Kind::Write,
        from: 0,
        to: 0,
        register: None,
        expressions: [0, 2, 1, 0].map(longest_expression).to_vec(),
    };
    Program {
        transitions: vec![write; MAX_TRANSITIONS],
        ..sparse(0, &[])
    }
}

/// A program whose transitions from 256 on are stores and loads in turn: number n, if even, stores
/// n in cell n / 2 modulo 8, and the next loads that cell.
fn stores_and_loads() -> Program {
    let placed: Vec<(usize, Transition)> = (256..400)
        .step_by(2)
        .flat_map(|number| {
            let cell = cell_of(number) as u16;
            [
                (number, store(cell, number as u16)),
                (number + 1, load(cell)),
            ]
        })
        .collect();
    sparse(400, &placed)
}

/// The cell that the even transition of this number stores to.
fn cell_of(number: usize) -> usize {
    number / 2 % CELLS
}

/// 1,024 items in the longest form: a rank stores and loads, then the other, and so on through all
/// the transitions from 256 on.
fn longest_items() -> Vec<Item> {
    let pair = |turn: usize| {
        let (rank, number) = (1 + turn % 2, 256 + 2 * turn % 144);
        let place = |kind, number| at(command(kind, rank, number), cell_of(number - number % 2));
        let value = number as u16;
        [
            giving(place(Kind::Store, number), value),
            giving(place(Kind::Load, number + 1), value),
        ]
    };
    (0..MAX_ITEMS / 2).flat_map(pair).collect()
}

/// 1,024 items of ten bytes each.
fn longest_record() -> Row {
    let items = longest_items();
    let mut last = vec![0; RANKS * CELLS];
    for item in &items {
        if let (Some(place), Some(value)) = (item.place, item.value) {
            last[CELLS * (place.rank - 1) + place.cell] = value;
        }
    }
    let order = own_order(MAX_ITEMS);
    accepted(
        "400-longest-record",
        &stores_and_loads(),
        &items,
        order,
        last,
    )
}
