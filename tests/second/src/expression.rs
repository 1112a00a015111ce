//! Expressions: tokens in prefix form, read, written and evaluated.

use crate::bytes::{below, ByteReader};
use crate::limits::{number, refuse, Outcome, MAX_TOKENS};

/// The tokens with two operands.
#[derive(Debug, Clone, Copy, PartialEq, Eq)]
pub enum Operator {
    /// Token 10: the sum, which has no value above 65,535.
    Sum,
    /// Token 11: the difference, which has no value below 0.
    Difference,
    /// Token 12: the product, which has no value above 65,535.
    Product,
    /// Token 13: 1 if the operands are equal, else 0.
    Equal,
    /// Token 14: 1 if the first operand is less than the second, else 0.
    Less,
}

/// The operators in the order of their token bytes 10 to 14 (hexadecimal).
pub const OPERATORS: [Operator; 5] = [
    Operator::Sum,
    Operator::Difference,
    Operator::Product,
    Operator::Equal,
    Operator::Less,
];

/// The byte of the first operator token.
const FIRST_OPERATOR: u8 = 0x10;

/// An expression as a tree.
#[derive(Debug, Clone, PartialEq, Eq)]
pub enum Expression {
    /// Token 00 with its two bytes.
    Constant(u16),
    /// Token 01 with its register.
    Register(usize),
    /// Token 02: the rank that evaluates.
    OwnRank,
    /// Token 03: N.
    RankCount,
    /// Tokens 10 to 14 with their two operands.
    Binary(Operator, Box<Expression>, Box<Expression>),
    /// The same as it was before #102, modulo 65,536. No expression is read so: the corpus files
    /// from before #102 are made with it, so that their inputs stay.
    Dated(Operator, Box<Expression>, Box<Expression>),
}

/// What an expression is evaluated in: one rank's registers before the step, its number, and N.
pub struct Environment<'a> {
    /// The rank's registers.
    pub registers: &'a [u16],
    /// The rank's own number.
    pub rank: usize,
    /// N.
    pub ranks: usize,
}

impl Operator {
    /// The exact result for two operands.
    fn exact(self, first: u16, second: u16) -> i64 {
        let (first, second) = (i64::from(first), i64::from(second));
        match self {
            Operator::Sum => first + second,
            Operator::Difference => first - second,
            Operator::Product => first * second,
            Operator::Equal => i64::from(first == second),
            Operator::Less => i64::from(first < second),
        }
    }

    /// Applies the operator to its two operands; none if the result is below 0 or above 65,535.
    pub fn apply(self, first: u16, second: u16) -> Option<u16> {
        u16::try_from(self.exact(first, second)).ok()
    }

    /// Applies the operator as before #102, modulo 65,536.
    fn apply_dated(self, first: u16, second: u16) -> u16 {
        self.exact(first, second).rem_euclid(65_536) as u16
    }

    /// The operator's token byte.
    fn token(self) -> u8 {
        match self {
            Operator::Sum => 0x10,
            Operator::Difference => 0x11,
            Operator::Product => 0x12,
            Operator::Equal => 0x13,
            Operator::Less => 0x14,
        }
    }
}

impl Expression {
    /// An operator over two expressions.
    pub fn binary(operator: Operator, first: Expression, second: Expression) -> Expression {
        Expression::Binary(operator, Box::new(first), Box::new(second))
    }

    /// Reads one expression of at most 15 tokens.
    pub fn read(reader: &mut ByteReader, registers: usize) -> Outcome<Expression> {
        let mut left = MAX_TOKENS;
        read_tokens(reader, registers, &mut left)
    }

    /// The expression's value. It has none if a sum, difference or product in it passes the range,
    /// whatever stands around that.
    pub fn evaluate(&self, environment: &Environment) -> Option<u16> {
        match self {
            Expression::Constant(value) => Some(*value),
            Expression::Register(register) => Some(environment.registers[*register]),
            Expression::OwnRank => Some(small(environment.rank)),
            Expression::RankCount => Some(small(environment.ranks)),
            Expression::Binary(operator, first, second) => {
                let first = first.evaluate(environment)?;
                let second = second.evaluate(environment)?;
                operator.apply(first, second)
            }
            Expression::Dated(operator, first, second) => {
                let first = first.evaluate(environment)?;
                let second = second.evaluate(environment)?;
                Some(operator.apply_dated(first, second))
            }
        }
    }

    /// The expression as it was before #102; its bytes are the same.
    pub fn dated(self) -> Expression {
        match self {
            Expression::Binary(operator, first, second) => {
                let (first, second) = (first.dated(), second.dated());
                Expression::Dated(operator, Box::new(first), Box::new(second))
            }
            other => other,
        }
    }

    /// Appends the expression's token bytes.
    pub fn write(&self, out: &mut Vec<u8>) {
        match self {
            Expression::Constant(value) => {
                out.push(0x00);
                out.extend(value.to_be_bytes());
            }
            Expression::Register(register) => out.extend([0x01, *register as u8]),
            Expression::OwnRank => out.push(0x02),
            Expression::RankCount => out.push(0x03),
            Expression::Binary(operator, first, second)
            | Expression::Dated(operator, first, second) => {
                out.push(operator.token());
                first.write(out);
                second.write(out);
            }
        }
    }
}

/// A rank or a rank count as a value.
fn small(rank: usize) -> u16 {
    rank as u16
}

/// Reads one token and its operands; `left` tokens may still be read.
fn read_tokens(reader: &mut ByteReader, registers: usize, left: &mut usize) -> Outcome<Expression> {
    let place = reader.place();
    let token = reader.byte()?;
    if *left == 0 {
        return refuse(number::PROGRAM_FORM, place);
    }
    *left -= 1;
    match token {
        0x00 => Ok(Expression::Constant(reader.word()?)),
        0x01 => {
            let register = reader.byte_within(below(registers), number::PROGRAM_RANGE)?;
            Ok(Expression::Register(register))
        }
        0x02 => Ok(Expression::OwnRank),
        0x03 => Ok(Expression::RankCount),
        0x10..=0x14 => {
            let operator = OPERATORS[usize::from(token - FIRST_OPERATOR)];
            let first = read_tokens(reader, registers, left)?;
            let second = read_tokens(reader, registers, left)?;
            Ok(Expression::Binary(
                operator,
                Box::new(first),
                Box::new(second),
            ))
        }
        _ => refuse(number::PROGRAM_FORM, place),
    }
}
