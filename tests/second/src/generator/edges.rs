//! Expressions at the edges of the range, one step within, or one step beyond: #102.

use super::expressions::Scope;
use super::rng::Rng;
use crate::expression::{Expression, Operator};

/// Constants of which sums, differences and products reach an edge with small numbers.
const CONSTANTS: [u16; 12] = [
    0, 1, 2, 3, 255, 256, 257, 21_845, 32_767, 32_768, 65_534, 65_535,
];
/// How far results lie beyond the edge, mostly within.
const NEAR: [i64; 6] = [-1, 0, 0, 0, 0, 1];
/// How far results lie beyond the edge, mostly beyond.
const BEYOND: [i64; 3] = [0, 1, 1];
/// The most tokens that an expression may have to be moved: `moved` brings ten at most.
const MOVED_TOKENS: usize = 5;
/// The most tokens of a part that stands in an expression twice.
const TWICE_TOKENS: usize = 3;
/// The operators whose result may pass the range.
const PASSING: [Operator; 3] = [Operator::Sum, Operator::Difference, Operator::Product];

/// A part of an expression.
struct Part {
    /// The part itself.
    expression: Expression,
    /// The value that it is expected to have: a register what is known of it, the own rank a busy
    /// one's, and modulo 65,536 where it passes the range.
    expected: u16,
}

/// An expression that is expected to have this value and holds a part at an edge. Often no result
/// depends on that part.
pub fn edged(rng: &mut Rng, scope: Scope, value: u16) -> Expression {
    let part = edge(rng, scope, &NEAR);
    around(rng, part, value)
}

/// The part in an expression that is expected to have this value.
fn around(rng: &mut Rng, part: Part, value: u16) -> Expression {
    use Operator::{Difference, Equal, Less, Product, Sum};
    let Part {
        expression,
        expected,
    } = part;
    let constant = Expression::Constant;
    match rng.below(9) {
        0..=2 if expected >= value => {
            Expression::binary(Difference, expression, constant(expected - value))
        }
        0..=2 => Expression::binary(Sum, expression, constant(value - expected)),
        3 => {
            let none = Expression::binary(Less, expression, constant(0));
            Expression::binary(Sum, constant(value), none)
        }
        4 => {
            let none = Expression::binary(Less, constant(65_535), expression);
            Expression::binary(Sum, none, constant(value))
        }
        5 => {
            let none = Expression::binary(Product, constant(0), expression);
            Expression::binary(Sum, none, constant(value))
        }
        6 if tokens(&expression) <= TWICE_TOKENS => {
            let one = Expression::binary(Equal, expression.clone(), expression);
            Expression::binary(Product, constant(value), one)
        }
        7 => {
            let one = Expression::binary(Equal, constant(expected), expression);
            Expression::binary(Product, constant(value), one)
        }
        _ => {
            let one = Expression::binary(Equal, expression, constant(expected));
            Expression::binary(Product, one, constant(value))
        }
    }
}

/// The expression with something about it that comes to the edge of the range, or passes it as a
/// rule, and that leaves its value modulo 65,536 as it was. A long one is put away first.
pub fn moved(rng: &mut Rng, scope: Scope, mut expression: Expression) -> Expression {
    if tokens(&expression) > MOVED_TOKENS {
        expression = Expression::Constant(rng.below(2) as u16);
    }
    let part = edge(rng, scope, &BEYOND);
    let zero = around(rng, part, 0);
    let operator = *rng.pick(&[Operator::Sum, Operator::Difference]);
    Expression::binary(operator, expression, zero)
}

/// How many tokens an expression has.
fn tokens(expression: &Expression) -> usize {
    match expression {
        Expression::Binary(_, first, second) | Expression::Dated(_, first, second) => {
            1 + tokens(first) + tokens(second)
        }
        _ => 1,
    }
}

/// A sum, difference or product that lies so far beyond an edge; one in four times another such
/// within.
fn edge(rng: &mut Rng, scope: Scope, steps: &[i64]) -> Part {
    let mut part = leaf(rng, scope);
    if rng.chance(1, 4) {
        part = edge_over(rng, part, steps);
    }
    edge_over(rng, part, steps)
}

/// A constant, a register, the own rank or N.
fn leaf(rng: &mut Rng, scope: Scope) -> Part {
    let program = scope.program;
    let (expression, expected) = match rng.below(7) {
        0 => (Expression::OwnRank, scope.named_rank(rng)),
        1 => (Expression::RankCount, program.ranks as u16),
        2 | 3 => {
            let register = rng.below(program.registers);
            let known = scope.registers.get(register);
            (Expression::Register(register), known.copied().unwrap_or(0))
        }
        _ => {
            let constant = *rng.pick(&CONSTANTS);
            (Expression::Constant(constant), constant)
        }
    };
    Part {
        expression,
        expected,
    }
}

/// The part as an operand of a sum, difference or product that lies so far beyond an edge, if the
/// other operand can be so large.
fn edge_over(rng: &mut Rng, part: Part, steps: &[i64]) -> Part {
    let Part {
        expression,
        expected,
    } = part;
    let operator = *rng.pick(&PASSING);
    let further = *rng.pick(steps);
    let known = i64::from(expected);
    let first = rng.chance(1, 2);
    let other = match operator {
        Operator::Sum => 65_535 - known + further,
        Operator::Product => 65_535 / known.max(1) + further.max(0),
        _ if first => known + further,
        _ => known - further,
    };
    let other = other.clamp(0, 65_535) as u16;
    let result = match operator {
        Operator::Sum => expected.wrapping_add(other),
        Operator::Product => expected.wrapping_mul(other),
        _ if first => expected.wrapping_sub(other),
        _ => other.wrapping_sub(expected),
    };
    let other = Expression::Constant(other);
    let expression = if first {
        Expression::binary(operator, expression, other)
    } else {
        Expression::binary(operator, other, expression)
    };
    Part {
        expression,
        expected: result,
    }
}

/// Operands for which the operator gives this value and passes no range, if there are any.
pub fn operands(rng: &mut Rng, operator: Operator, value: u16) -> Option<(u16, u16)> {
    let other = rng.value();
    match operator {
        Operator::Sum => {
            let first = other.min(value);
            Some((first, value - first))
        }
        Operator::Difference => {
            let second = other.min(65_535 - value);
            Some((value + second, second))
        }
        Operator::Product if value == 0 => Some(*rng.pick(&[(0, other), (other, 0)])),
        Operator::Product => {
            let divides = |factor: &u16| *factor > 0 && value.is_multiple_of(*factor);
            let factors: Vec<u16> = CONSTANTS.into_iter().filter(divides).collect();
            let factor = *rng.pick(&factors);
            Some((factor, value / factor))
        }
        Operator::Equal if value == 1 => Some((other, other)),
        Operator::Equal if value == 0 => Some((other, other ^ 1)),
        Operator::Less if value == 1 => Some((other.min(65_534), other.min(65_534) + 1)),
        Operator::Less if value == 0 => Some((other, other.min(7))),
        Operator::Equal | Operator::Less => None,
    }
}
