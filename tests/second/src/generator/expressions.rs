//! Random expressions for each role in a command.

use super::edges::{edged, operands};
use super::rng::Rng;
use crate::expression::{Expression, Operator, OPERATORS};
use crate::program::Program;

/// What an expression stands for in its command.
#[derive(Debug, Clone, Copy, PartialEq, Eq)]
pub enum Role {
    /// A cell number.
    Cell,
    /// A remote rank.
    Rank,
    /// A queue.
    Queue,
    /// Any value.
    Value,
    /// The value of an assume.
    Condition,
}

/// How sums, differences and products are drawn.
#[derive(Debug, Clone, Copy, PartialEq, Eq)]
pub enum Sums {
    /// As before #102, when they came round. Programs drawn so are dated, and nothing is drawn for
    /// #102, so that the corpus files from before it come out with the same inputs.
    Dated,
    /// Mostly within the range, often at its edges, and now and then just beyond.
    Edged,
}

/// What a transition's expressions are about.
#[derive(Debug, Clone, Copy)]
pub struct Scope<'a> {
    /// The program, whose transitions need not be there yet.
    pub program: &'a Program,
    /// The ranks that constants name.
    pub busy: &'a [usize],
    /// What the registers are expected to hold, if that is known; else 0.
    pub registers: &'a [u16],
    /// How sums, differences and products are drawn.
    pub sums: Sums,
}

/// The most operators of an expression in which anything may stand: with more it passes the range
/// as a rule.
const FREE_OPERATORS: usize = 1;

impl Scope<'_> {
    /// One of the ranks that constants name.
    pub fn named_rank(&self, rng: &mut Rng) -> u16 {
        *rng.pick(self.busy) as u16
    }
}

/// A random expression for a role, with at most so many operators; mostly in the role's range.
pub fn expression(rng: &mut Rng, scope: Scope, role: Role, operators: usize) -> Expression {
    let program = scope.program;
    if rng.chance(1, 40) {
        return free(rng, scope, operators);
    }
    if scope.sums == Sums::Edged && rng.chance(1, edged_one_in(role)) {
        let value = usual(rng, scope, role);
        return edged(rng, scope, value);
    }
    match role {
        Role::Cell if rng.chance(3, 4) => {
            let cell = rng.below(program.cells.min(4));
            constant(rng, scope.sums, cell as u16, operators)
        }
        Role::Cell => {
            let cell = rng.below(program.cells);
            by_rank(rng, scope, cell as u16, operators)
        }
        Role::Rank => remote_rank(rng, scope, operators),
        Role::Queue => {
            let queue = rng.below(program.queues);
            constant(rng, scope.sums, queue as u16, operators)
        }
        Role::Value if scope.sums == Sums::Edged && rng.chance(1, 3) => {
            let value = rng.value();
            constant(rng, scope.sums, value, operators)
        }
        Role::Value => free(rng, scope, operators),
        Role::Condition if rng.chance(1, 3) => {
            let value = rng.value();
            constant(rng, scope.sums, value, operators)
        }
        Role::Condition => by_rank(rng, scope, 1, operators),
    }
}

/// One in so many expressions is at an edge: fewer of those that a transfer has four of.
fn edged_one_in(role: Role) -> usize {
    match role {
        Role::Cell | Role::Rank | Role::Queue => 10,
        Role::Value | Role::Condition => 4,
    }
}

/// A value in the role's range.
fn usual(rng: &mut Rng, scope: Scope, role: Role) -> u16 {
    match role {
        Role::Cell => rng.below(scope.program.cells.min(4)) as u16,
        Role::Rank => scope.named_rank(rng),
        Role::Queue => rng.below(scope.program.queues) as u16,
        Role::Value => rng.value(),
        Role::Condition => *rng.pick(&[0, 1, 1, 65_535]),
    }
}

/// An expression of constants alone that has this value.
fn constant(rng: &mut Rng, sums: Sums, value: u16, operators: usize) -> Expression {
    if operators == 0 || rng.chance(1, 3) {
        return Expression::Constant(value);
    }
    let left = rng.below(operators);
    let right = operators - 1 - left;
    let operands = match sums {
        Sums::Dated => dated_operands(rng, value),
        Sums::Edged => {
            let operator = *rng.pick(&OPERATORS);
            operands(rng, operator, value).map(|operands| (operator, operands))
        }
    };
    let Some((operator, (first, second))) = operands else {
        return Expression::Constant(value);
    };
    let first = constant(rng, sums, first, left);
    let second = constant(rng, sums, second, right);
    Expression::binary(operator, first, second)
}

/// An operator and operands for which it gives this value, coming round where it may.
fn dated_operands(rng: &mut Rng, value: u16) -> Option<(Operator, (u16, u16))> {
    let other = rng.value();
    let operator = *rng.pick(&OPERATORS);
    let operands = match operator {
        Operator::Sum => (other, value.wrapping_sub(other)),
        Operator::Difference => (value.wrapping_add(other), other),
        Operator::Product => (1, value),
        Operator::Equal if value == 1 => (other, other),
        Operator::Equal if value == 0 => (other, other.wrapping_add(1)),
        Operator::Less if value == 1 => (other.min(65534), other.min(65534) + 1),
        Operator::Less if value == 0 => (other, other.min(7)),
        Operator::Equal | Operator::Less => return None,
    };
    Some((operator, operands))
}

/// An expression that has this value at one rank and may have others elsewhere.
fn by_rank(rng: &mut Rng, scope: Scope, value: u16, operators: usize) -> Expression {
    if operators == 0 {
        let register = Expression::Register(rng.below(scope.program.registers));
        return rng.pick(&[register, Expression::Constant(value)]).clone();
    }
    let rank = scope.named_rank(rng);
    let rest = operators - 1;
    match rng.below(3) {
        0 if scope.sums == Sums::Edged && value < rank => {
            let shift = constant(rng, scope.sums, rank - value, rest);
            Expression::binary(Operator::Difference, Expression::OwnRank, shift)
        }
        0 => {
            let shift = constant(rng, scope.sums, value.wrapping_sub(rank), rest);
            Expression::binary(Operator::Sum, Expression::OwnRank, shift)
        }
        1 => {
            let named = constant(rng, scope.sums, rank, rest);
            Expression::binary(Operator::Equal, Expression::OwnRank, named)
        }
        _ => {
            let named = constant(rng, scope.sums, rank, rest);
            Expression::binary(Operator::Less, Expression::OwnRank, named)
        }
    }
}

/// An expression for a remote rank: fixed, the own one, N, or the opposite one.
fn remote_rank(rng: &mut Rng, scope: Scope, operators: usize) -> Expression {
    if operators >= 2 && rng.chance(1, 3) {
        let one_more = Expression::binary(
            Operator::Sum,
            Expression::RankCount,
            Expression::Constant(1),
        );
        return Expression::binary(Operator::Difference, one_more, Expression::OwnRank);
    }
    match rng.below(8) {
        0 => Expression::OwnRank,
        1 => Expression::RankCount,
        _ => {
            let rank = scope.named_rank(rng);
            constant(rng, scope.sums, rank, operators)
        }
    }
}

/// Any expression over constants, registers, the own rank and N.
fn free(rng: &mut Rng, scope: Scope, operators: usize) -> Expression {
    let most = match scope.sums {
        Sums::Dated => operators,
        Sums::Edged => operators.min(FREE_OPERATORS),
    };
    free_over(rng, scope.program, most)
}

/// Any expression with at most so many operators.
fn free_over(rng: &mut Rng, program: &Program, operators: usize) -> Expression {
    if operators == 0 || rng.chance(1, 4) {
        return match rng.below(6) {
            0 => Expression::OwnRank,
            1 => Expression::RankCount,
            2 | 3 => Expression::Register(rng.below(program.registers)),
            _ => Expression::Constant(rng.value()),
        };
    }
    let left = rng.below(operators);
    let operator = *rng.pick(&OPERATORS);
    let first = free_over(rng, program, left);
    let second = free_over(rng, program, operators - 1 - left);
    Expression::binary(operator, first, second)
}
