//! What each token gives, where it shows: in a stored value, in the cell that is stored to, and in an
//! assume.

use super::{accepted, refused};
use crate::expression::Expression::{self, Constant, OwnRank, RankCount, Register};
use crate::expression::Operator::{self, Equal, Less, Sum};
use crate::families::parts::{assign, assume, at, command, giving, store, with_operand};
use crate::families::row::{own_order, Row};
use crate::program::{Kind, Program, Transition};
use crate::record::Item;

/// An operator over two expressions.
fn binary(operator: Operator, first: Expression, second: Expression) -> Expression {
    Expression::binary(operator, first, second)
}

/// An equal.
fn equal(first: Expression, second: Expression) -> Expression {
    binary(Equal, first, second)
}

/// A less.
fn less(first: Expression, second: Expression) -> Expression {
    binary(Less, first, second)
}

/// Names, expressions, and their values at rank 2 of 3, whose register 0 has 6 and register 3 has 5,
/// while register 3 of rank 1 has 7 and all others have 0.
fn everywhere() -> Vec<(&'static str, Expression, u16)> {
    vec![
        ("own", OwnRank, 2),
        ("n", RankCount, 3),
        ("register-3", Register(3), 5),
        ("own-equals-2", equal(OwnRank, Constant(2)), 1),
        ("own-equals-n", equal(OwnRank, RankCount), 0),
        ("n-equals-own", equal(RankCount, OwnRank), 0),
        ("own-less-n", less(OwnRank, RankCount), 1),
        ("n-less-own", less(RankCount, OwnRank), 0),
        ("own-less-own", less(OwnRank, OwnRank), 0),
        ("register-3-less-0", less(Register(3), Register(0)), 1),
        ("register-0-less-3", less(Register(0), Register(3)), 0),
        ("register-3-less-3", less(Register(3), Register(3)), 0),
    ]
}

/// More of them, which are stored only.
fn stored_only() -> Vec<(&'static str, Expression, u16)> {
    let of_constants =
        |operator, first, second| binary(operator, Constant(first), Constant(second));
    vec![
        ("register-0", Register(0), 6),
        ("register-1", Register(1), 0),
        ("n-equals-3", equal(RankCount, Constant(3)), 1),
        ("register-3-equals-5", equal(Register(3), Constant(5)), 1),
        ("register-0-equals-3", equal(Register(0), Register(3)), 0),
        // 261 is 256 + 5
        (
            "261-equals-register-3",
            equal(Constant(261), Register(3)),
            0,
        ),
        ("register-3-less-261", less(Register(3), Constant(261)), 1),
        ("255-less-256", of_constants(Less, 255, 256), 1),
        ("256-less-255", of_constants(Less, 256, 255), 0),
        ("32767-less-32768", of_constants(Less, 32_767, 32_768), 1),
        ("32768-less-32767", of_constants(Less, 32_768, 32_767), 0),
        ("65535-less-65535", of_constants(Less, 65_535, 65_535), 0),
        ("0-less-0", of_constants(Less, 0, 0), 0),
        (
            "equal-and-less",
            binary(Sum, equal(OwnRank, Constant(2)), less(OwnRank, RankCount)),
            2,
        ),
        (
            "less-of-equal-and-less",
            less(equal(OwnRank, RankCount), less(OwnRank, RankCount)),
            1,
        ),
    ]
}

/// All rows.
pub fn rows() -> Vec<Row> {
    let mut rows = Vec::new();
    for (what, expression, value) in everywhere() {
        rows.extend([
            stored(what, expression.clone(), value),
            addressed(what, expression.clone(), value),
            assumed(what, expression, value),
        ]);
    }
    let more = stored_only().into_iter();
    rows.extend(more.map(|(what, expression, value)| stored(what, expression, value)));
    rows
}

/// An assign of a value to a register.
fn assign_to(register: usize, value: u16) -> Transition {
    Transition {
        register: Some(register),
        ..assign(value)
    }
}

/// A program of three ranks with the assigns to the registers and then this transition, and the items
/// that take them: rank 1 takes the first, and rank 2 the others, with this item at the end.
fn run(transition: Transition, place: Option<usize>) -> (Program, Vec<Item>) {
    let kind = transition.kind;
    let program = Program {
        ranks: 3,
        cells: 8,
        registers: 4,
        queues: 1,
        states: 1,
        transitions: vec![
            assign_to(3, 7),
            assign_to(0, 6),
            assign_to(3, 5),
            transition,
        ],
    };
    let last = command(kind, 2, 3);
    let items = vec![
        command(Kind::Assign, 1, 0),
        command(Kind::Assign, 2, 1),
        command(Kind::Assign, 2, 2),
        place.map_or(last, |cell| at(last, cell)),
    ];
    (program, items)
}

/// The value is stored in cell 1, and the item gives it.
fn stored(what: &str, expression: Expression, value: u16) -> Row {
    let (program, mut items) = run(with_operand(store(1, 0), 1, expression), Some(1));
    items[3] = giving(items[3], value);
    let what = format!("stored-{what}");
    accepted(&what, &program, &items, own_order(4), &[((2, 1), value)])
}

/// 9 is stored in the cell of this number.
fn addressed(what: &str, expression: Expression, value: u16) -> Row {
    let cell = usize::from(value);
    let (program, items) = run(with_operand(store(0, 9), 0, expression), Some(cell));
    let what = format!("addressed-{what}");
    accepted(&what, &program, &items, own_order(4), &[((2, cell), 9)])
}

/// An assume passes, or gives 0.
fn assumed(what: &str, expression: Expression, value: u16) -> Row {
    let (program, items) = run(with_operand(assume(0), 0, expression), None);
    let what = format!("assumed-{what}");
    match value {
        0 => refused(&what, &program, &items, 9, 3),
        _ => accepted(&what, &program, &items, own_order(4), &[]),
    }
}
