//! Expressions that hold one without a value, at every operator and depth; and others whose parts
//! come to the edge and no further.

use super::build::{
    assume_of, constant, difference, empty_difference, equal, full_product, full_sum, less,
    machine, passing, passing_difference, passing_product, passing_sum, product, store_of, sum,
};
use super::{accepted, own_order, refused, without_value};
use crate::expression::Expression;
use crate::families::parts::{at, command};
use crate::families::row::Row;
use crate::program::Kind;

/// An operator as a function.
type Over = fn(Expression, Expression) -> Expression;

/// All operators with their names.
const OPERATORS: [(&str, Over); 5] = [
    ("sum", sum),
    ("difference", difference),
    ("product", product),
    ("equal", equal),
    ("less", less),
];

/// All rows.
pub fn rows() -> Vec<Row> {
    let mut rows = under_each_operator();
    rows.extend(both_operands());
    rows.extend(come_back());
    rows.extend(within());
    rows.extend(deep());
    rows.extend(assumes());
    rows
}

/// A store of something that has no value.
fn not_stored(what: &str, value: Expression) -> Row {
    let item = at(command(Kind::Store, 1, 0), 0);
    without_value(what, &machine(1, &[store_of(value)]), &[item], 0)
}

/// A store of something that has this value.
fn stored(what: &str, expression: Expression, value: u16) -> Row {
    let item = at(command(Kind::Store, 1, 0), 0);
    let program = machine(1, &[store_of(expression)]);
    accepted(what, &program, &[item], own_order(1), &[((1, 0), value)])
}

/// Each of the three without a value as first and as second operand of each operator, beside a 0:
/// a product of 0, and less than 0, depend on it in no way.
fn under_each_operator() -> Vec<Row> {
    let mut rows = Vec::new();
    for (outer, over) in OPERATORS {
        for (inner, part) in passing() {
            let first = over(part.clone(), constant(0));
            rows.push(not_stored(&format!("{inner}-first-of-{outer}"), first));
            let second = over(constant(0), part);
            rows.push(not_stored(&format!("{inner}-second-of-{outer}"), second));
        }
    }
    rows
}

/// The same without a value on both sides.
fn both_operands() -> Vec<Row> {
    let row = |(word, over): (&str, Over)| {
        let both = over(passing_difference(), passing_difference());
        not_stored(&format!("both-of-{word}"), both)
    };
    OPERATORS.into_iter().map(row).collect()
}

/// What comes back into the range has no value either.
fn come_back() -> Vec<Row> {
    let number = constant;
    let twice = sum(number(65_535), number(65_535));
    vec![
        not_stored("sum-less-1", difference(passing_sum(), number(1))),
        not_stored("difference-and-1", sum(passing_difference(), number(1))),
        not_stored("product-less-1", difference(passing_product(), number(1))),
        not_stored("twice-less-once", difference(twice, number(65_535))),
        not_stored(
            "sum-and-difference",
            sum(passing_sum(), passing_difference()),
        ),
        not_stored(
            "equal-parts",
            equal(passing_sum(), sum(number(32_768), number(32_768))),
        ),
        not_stored("equal-to-what-it-was", equal(passing_product(), number(0))),
        not_stored("less-than-all", less(passing_difference(), number(65_535))),
        not_stored(
            "equal-within-a-product",
            product(equal(passing_sum(), number(5)), number(0)),
        ),
        not_stored(
            "two-sides",
            sum(
                difference(number(0), number(0)),
                less(passing_sum(), full_sum()),
            ),
        ),
    ]
}

/// Parts that come to the edge, with what they give.
fn within() -> Vec<Row> {
    let number = constant;
    vec![
        stored(
            "down-and-up",
            sum(difference(number(65_535), number(1)), number(1)),
            65_535,
        ),
        stored(
            "up-and-down",
            difference(sum(number(65_534), number(1)), number(1)),
            65_534,
        ),
        stored("all-but-all", difference(full_product(), full_sum()), 0),
        stored(
            "all-and-none",
            sum(number(65_535), empty_difference()),
            65_535,
        ),
        stored(
            "product-of-sums",
            product(sum(number(254), number(1)), sum(number(256), number(1))),
            65_535,
        ),
        stored(
            "product-of-differences",
            product(
                difference(number(256), number(1)),
                difference(number(257), number(0)),
            ),
            65_535,
        ),
        // 255 × 256 is 65,280
        stored(
            "sum-of-a-product",
            sum(product(number(255), number(256)), number(255)),
            65_535,
        ),
        not_stored(
            "sum-of-a-product-and-1",
            sum(product(number(255), number(256)), number(256)),
        ),
        stored("equal-at-the-edge", equal(full_sum(), full_product()), 1),
        stored(
            "less-at-both-edges",
            less(empty_difference(), full_sum()),
            1,
        ),
        stored("not-less-at-the-edge", less(full_sum(), number(65_535)), 0),
        stored(
            "none-of-all",
            product(empty_difference(), full_product()),
            0,
        ),
        stored(
            "counts-of-ones",
            sum(equal(full_sum(), full_sum()), less(full_sum(), full_sum())),
            1,
        ),
    ]
}

/// So many times the operator over the expression as first operand, the second being this constant.
fn left(over: Over, mut inner: Expression, second: u16, times: usize) -> Expression {
    for _ in 0..times {
        inner = over(inner, constant(second));
    }
    inner
}

/// So many times the operator over the expression as second operand, the first being this constant.
fn right(over: Over, mut inner: Expression, first: u16, times: usize) -> Expression {
    for _ in 0..times {
        inner = over(constant(first), inner);
    }
    inner
}

/// A sum of eight constants, put together in pairs.
fn balanced(last: u16) -> Expression {
    let pair = |last| sum(constant(8_192), constant(last));
    let four = |last| sum(pair(8_192), pair(last));
    sum(four(8_192), four(last))
}

/// Expressions of fifteen tokens, with the part that matters at the bottom or at the top.
fn deep() -> Vec<Row> {
    vec![
        stored("left-15", left(sum, full_sum(), 0, 6), 65_535),
        not_stored("left-15-top", sum(left(sum, full_sum(), 0, 5), constant(1))),
        not_stored("left-15-bottom", left(product, passing_sum(), 0, 6)),
        // 65,535 − 0 is at the bottom of seven, so that 65,535 and 0 take turns
        stored(
            "right-15",
            right(difference, constant(0), 65_535, 7),
            65_535,
        ),
        not_stored(
            "right-15-top",
            difference(
                constant(0),
                right(difference, empty_difference(), 65_535, 5),
            ),
        ),
        not_stored("right-15-bottom", right(less, passing_product(), 0, 6)),
        // seven times 8,192 are 57,344
        stored("balanced-15", balanced(8_191), 65_535),
        not_stored("balanced-15", balanced(8_192)),
    ]
}

/// Assumes that pass, give 0, or have no value.
fn assumes() -> Vec<Row> {
    let number = constant;
    let passes = [
        ("full-sum", full_sum()),
        ("full-product", full_product()),
        ("one-left", difference(number(65_535), number(65_534))),
        ("none-is-0", equal(empty_difference(), number(0))),
        ("product-is-full", equal(full_product(), number(65_535))),
        ("less-than-full", less(number(1), full_sum())),
    ];
    let gives_0 = [
        ("empty-difference", empty_difference()),
        ("all-but-all", difference(full_sum(), number(65_535))),
        ("none-of-full", product(number(0), full_sum())),
        ("full-less-than-full", less(full_product(), number(65_535))),
        (
            "not-full",
            equal(sum(number(65_534), number(0)), number(65_535)),
        ),
    ];
    let without = [
        ("sum", passing_sum()),
        ("product", passing_product()),
        ("difference", passing_difference()),
        ("sum-is-0", equal(passing_sum(), number(0))),
        ("sum-is-1", equal(passing_sum(), number(1))),
        (
            "0-less-than-difference",
            less(number(0), passing_difference()),
        ),
        (
            "difference-less-than-0",
            less(passing_difference(), number(0)),
        ),
        ("none-of-a-product", product(number(0), passing_product())),
        (
            "1-and-none",
            sum(number(1), product(passing_sum(), number(0))),
        ),
        (
            "difference-is-itself",
            equal(passing_difference(), passing_difference()),
        ),
    ];
    let item = command(Kind::Assume, 1, 0);
    let program = |expression| machine(1, &[assume_of(expression)]);
    let mut rows = Vec::new();
    for (what, expression) in passes {
        let what = format!("assume-{what}");
        rows.push(accepted(
            &what,
            &program(expression),
            &[item],
            own_order(1),
            &[],
        ));
    }
    for (what, expression) in gives_0 {
        let what = format!("assume-{what}");
        rows.push(refused(&what, &program(expression), &[item], 9, 0));
    }
    for (what, expression) in without {
        let what = format!("assume-{what}");
        rows.push(without_value(&what, &program(expression), &[item], 0));
    }
    rows
}
