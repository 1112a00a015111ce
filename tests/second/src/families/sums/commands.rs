//! Every command and each of its expressions with each operator at both sides of the edge. Where an
//! expression has no value, it is modulo 65,536 the one that would be accepted, or, in the last
//! rows, one outside the range that 8 asks for.

use super::build::{
    assign_of, constant, difference, empty_difference, full_product, full_sum, machine,
    passing_difference, passing_product, passing_sum, register, store_of, sum,
};
use super::{accepted, own_order, refused, without_value};
use crate::expression::Expression;
use crate::families::parts::{
    assume, at, command, giving, load, popa, popb, read, store, with_operand, write,
};
use crate::families::row::Row;
use crate::program::{Kind, Program, Transition};
use crate::record::Item;

/// A command in a run of two ranks that is accepted in the record's own order if all is as here.
struct Place {
    /// What the cases' names call the command.
    name: &'static str,
    /// The command's transition, number 0.
    transition: Transition,
    /// The values of its expressions.
    values: &'static [u16],
    /// The other transitions.
    others: Vec<Transition>,
    /// The items.
    items: Vec<Item>,
    /// The item that takes the command.
    item: usize,
    /// How many groups there are.
    groups: usize,
    /// The cells at the end that are not 0.
    cells: Vec<((usize, usize), u16)>,
}

/// All rows of commands.
pub fn rows() -> Vec<Row> {
    let mut rows = Vec::new();
    for place in places() {
        for number in 0..place.values.len() {
            rows.extend(both_sides(&place, number));
            if is_numbered(&place, number) {
                rows.extend(outside(&place, number));
            }
        }
    }
    rows
}

/// The commands that have expressions.
fn places() -> Vec<Place> {
    let of = |name, transition, values: &'static [u16], items: Vec<Item>| Place {
        name,
        transition,
        values,
        others: Vec::new(),
        item: 0,
        groups: items.len(),
        items,
        cells: Vec::new(),
    };
    let loaded = giving(at(command(Kind::Load, 1, 0), 1), 0);
    let stored = giving(at(command(Kind::Store, 1, 0), 1), 7);
    let taken = giving(at(command(Kind::Store, 1, 1), 0), 7);
    vec![
        of("load", load(1), &[1], vec![loaded]),
        Place {
            cells: vec![((1, 1), 7)],
            ..of("store", store(1, 7), &[1, 7], vec![stored])
        },
        Place {
            others: vec![store_of(register())],
            cells: vec![((1, 0), 7)],
            ..of(
                "assign",
                assign_of(constant(7)),
                &[7],
                vec![command(Kind::Assign, 1, 0), taken],
            )
        },
        of("assume", assume(1), &[1], vec![command(Kind::Assume, 1, 0)]),
        transferred(read(1, 2, 0), &[1, 2, 0, 0], [(2, 0), (1, 1)]),
        transferred(write(0, 2, 1), &[0, 2, 1, 0], [(1, 0), (2, 1)]),
    ]
}

/// A transfer of rank 1: first the rank of the source cell stores 7 there.
fn transferred(
    transition: Transition,
    values: &'static [u16],
    [source, destination]: [(usize, usize); 2],
) -> Place {
    let kind = transition.kind;
    Place {
        name: kind.word(),
        transition,
        values,
        others: vec![store(0, 7)],
        items: vec![
            at(command(Kind::Store, source.0, 1), 0),
            command(kind, 1, 0),
            giving(popa(1, source), 7),
            giving(popb(1, destination), 7),
        ],
        item: 1,
        groups: 2,
        cells: vec![(source, 7), (destination, 7)],
    }
}

/// Whether the expression is a cell, rank or queue, and no value.
fn is_numbered(place: &Place, number: usize) -> bool {
    match place.transition.kind {
        Kind::Store => number == 0,
        Kind::Assign | Kind::Assume => false,
        _ => true,
    }
}

/// The program of a place with this expression in place of one of the command's.
fn program_with(place: &Place, number: usize, operand: Expression) -> Program {
    let changed = with_operand(place.transition.clone(), number, operand);
    machine(2, &[&[changed], &place.others[..]].concat())
}

/// Each operator at the edge, and beyond it.
fn both_sides(place: &Place, number: usize) -> Vec<Row> {
    let value = place.values[number];
    let rest = || constant(65_535 - value);
    let sides = [
        (
            "sum",
            difference(full_sum(), rest()),
            sum(passing_sum(), constant(value)),
        ),
        (
            "difference",
            sum(empty_difference(), constant(value)),
            sum(passing_difference(), constant(value + 1)),
        ),
        (
            "product",
            difference(full_product(), rest()),
            sum(passing_product(), constant(value)),
        ),
    ];
    let mut rows = Vec::new();
    for (word, within, beyond) in sides {
        let what = format!("{}-e{}-{word}", place.name, number + 1);
        let program = program_with(place, number, within);
        let answer = own_order(place.groups);
        rows.push(accepted(
            &what,
            &program,
            &place.items,
            answer,
            &place.cells,
        ));
        let program = program_with(place, number, beyond);
        rows.push(without_value(&what, &program, &place.items, place.item));
    }
    rows
}

/// 65,535 + 0 as a cell, rank or queue has a value and is 8, but 0 − 1, which was 65,535, has none.
fn outside(place: &Place, number: usize) -> Vec<Row> {
    let what = format!("{}-e{}-outside", place.name, number + 1);
    let full = program_with(place, number, full_sum());
    let passing = program_with(place, number, passing_difference());
    vec![
        refused(&what, &full, &place.items, 8, place.item),
        without_value(&what, &passing, &place.items, place.item),
    ]
}
