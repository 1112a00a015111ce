//! Sums, differences and products of constants at the edges of the range and beyond, stored in cell
//! 0 of the only rank.

use super::build::{constant, machine, store_of};
use super::{accepted, own_order, without_value};
use crate::expression::{Expression, Operator};
use crate::families::parts::{at, command, giving};
use crate::families::row::Row;
use crate::program::Kind;

use Operator::{Difference, Product, Sum};

/// Operators with operands and the value, which lies in the range.
const WITHIN: [(Operator, u16, u16, u16); 25] = [
    (Sum, 65_535, 0, 65_535),
    (Sum, 0, 65_535, 65_535),
    (Sum, 65_534, 1, 65_535),
    (Sum, 1, 65_534, 65_535),
    (Sum, 32_768, 32_767, 65_535),
    (Sum, 65_534, 0, 65_534),
    (Sum, 0, 0, 0),
    (Difference, 0, 0, 0),
    (Difference, 1, 1, 0),
    (Difference, 32_768, 32_768, 0),
    (Difference, 65_535, 65_535, 0),
    (Difference, 65_535, 0, 65_535),
    (Difference, 1, 0, 1),
    (Difference, 65_535, 65_534, 1),
    (Product, 255, 257, 65_535),
    (Product, 257, 255, 65_535),
    (Product, 1, 65_535, 65_535),
    (Product, 65_535, 1, 65_535),
    (Product, 3, 21_845, 65_535),
    (Product, 13_107, 5, 65_535),
    (Product, 2, 32_767, 65_534),
    (Product, 256, 255, 65_280),
    (Product, 0, 65_535, 0),
    (Product, 65_535, 0, 0),
    (Product, 0, 0, 0),
];

/// Operators with operands and what the value was before #102, modulo 65,536.
const BEYOND: [(Operator, u16, u16, u16); 21] = [
    (Sum, 65_535, 1, 0),
    (Sum, 1, 65_535, 0),
    (Sum, 32_768, 32_768, 0),
    (Sum, 65_534, 2, 0),
    (Sum, 65_535, 65_535, 65_534),
    (Sum, 40_000, 30_000, 4_464),
    (Difference, 0, 1, 65_535),
    (Difference, 1, 2, 65_535),
    (Difference, 65_534, 65_535, 65_535),
    (Difference, 0, 65_535, 1),
    (Difference, 0, 32_768, 32_768),
    (Product, 256, 256, 0),
    (Product, 2, 32_768, 0),
    (Product, 32_768, 2, 0),
    (Product, 255, 258, 254),
    (Product, 257, 256, 256),
    (Product, 3, 21_846, 2),
    (Product, 13_108, 5, 4),
    (Product, 65_535, 2, 65_534),
    (Product, 65_535, 65_535, 1),
    (Product, 65_535, 65_534, 2),
];

/// All rows of values.
pub fn rows() -> Vec<Row> {
    let within = WITHIN.into_iter().map(stored);
    let beyond = BEYOND.into_iter().map(not_stored);
    within.chain(beyond).collect()
}

/// The operator's word in names.
fn word(operator: Operator) -> &'static str {
    match operator {
        Sum => "plus",
        Difference => "minus",
        _ => "times",
    }
}

/// A store of a value in the range, which the item gives.
fn stored((operator, first, second, value): (Operator, u16, u16, u16)) -> Row {
    let what = format!("{first}-{}-{second}", word(operator));
    let expression = Expression::binary(operator, constant(first), constant(second));
    let program = machine(1, &[store_of(expression)]);
    let item = giving(at(command(Kind::Store, 1, 0), 0), value);
    let cell = match value {
        0 => String::new(),
        _ => format!("cell 1 0 {value}\n"),
    };
    accepted(&what, &program, &[item], own_order(1), &[((1, 0), value)])
        .with_slip(vec![1, 0, 1])
        .with_listing(format!("order 1\ngroup 0 store 1 0\n{cell}"))
}

/// A store of what has no value; the item gives what it was before #102.
fn not_stored((operator, first, second, before): (Operator, u16, u16, u16)) -> Row {
    let what = format!("{first}-{}-{second}", word(operator));
    let expression = Expression::binary(operator, constant(first), constant(second));
    let program = machine(1, &[store_of(expression)]);
    let item = giving(at(command(Kind::Store, 1, 0), 0), before);
    without_value(&what, &program, &[item], 0)
}
