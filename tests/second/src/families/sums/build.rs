//! Expressions and programs that the cases of #102 are put together from.

use crate::expression::{Expression, Operator};
use crate::families::parts::{assign, assume, store, with_operand};
use crate::program::{Program, Transition};

/// A constant.
pub fn constant(value: u16) -> Expression {
    Expression::Constant(value)
}

/// Register 0.
pub fn register() -> Expression {
    Expression::Register(0)
}

/// A sum.
pub fn sum(first: Expression, second: Expression) -> Expression {
    Expression::binary(Operator::Sum, first, second)
}

/// A difference.
pub fn difference(first: Expression, second: Expression) -> Expression {
    Expression::binary(Operator::Difference, first, second)
}

/// A product.
pub fn product(first: Expression, second: Expression) -> Expression {
    Expression::binary(Operator::Product, first, second)
}

/// An equal.
pub fn equal(first: Expression, second: Expression) -> Expression {
    Expression::binary(Operator::Equal, first, second)
}

/// A less.
pub fn less(first: Expression, second: Expression) -> Expression {
    Expression::binary(Operator::Less, first, second)
}

/// 65,535 + 0, which is 65,535.
pub fn full_sum() -> Expression {
    sum(constant(65_535), constant(0))
}

/// 0 − 0, which is 0.
pub fn empty_difference() -> Expression {
    difference(constant(0), constant(0))
}

/// 255 × 257, which is 65,535.
pub fn full_product() -> Expression {
    product(constant(255), constant(257))
}

/// 65,535 + 1, which has no value, and was 0.
pub fn passing_sum() -> Expression {
    sum(constant(65_535), constant(1))
}

/// 0 − 1, which has no value, and was 65,535.
pub fn passing_difference() -> Expression {
    difference(constant(0), constant(1))
}

/// 256 × 256, which has no value, and was 0.
pub fn passing_product() -> Expression {
    product(constant(256), constant(256))
}

/// The three that have no value, with their names.
pub fn passing() -> [(&'static str, Expression); 3] {
    [
        ("sum", passing_sum()),
        ("difference", passing_difference()),
        ("product", passing_product()),
    ]
}

/// A store of this value in cell 0.
pub fn store_of(value: Expression) -> Transition {
    with_operand(store(0, 0), 1, value)
}

/// An assign of this value to register 0.
pub fn assign_of(value: Expression) -> Transition {
    with_operand(assign(0), 0, value)
}

/// An assume of this value.
pub fn assume_of(value: Expression) -> Transition {
    with_operand(assume(0), 0, value)
}

/// A program of so many ranks, of two cells each, with these transitions: R 1, Q 1, S 2.
pub fn machine(ranks: usize, transitions: &[Transition]) -> Program {
    Program {
        ranks,
        cells: 2,
        registers: 1,
        queues: 1,
        states: 2,
        transitions: transitions.to_vec(),
    }
}
