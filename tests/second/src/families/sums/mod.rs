//! Cases of document 02's #102, sums that pass the range: numbers, places, orders, rings, cells,
//! slips and listings worked out by hand; then small runs that the exhaustive judge confirms.

mod build;
mod commands;
mod faults;
mod holding;
mod ranks;
mod registers;
mod runs;
mod values;

use super::chosen::{judged_cases, Source};
use super::row::{cells_with, own_order, Row};
use super::{cases_by_hand, Named};
use crate::corpus::Expected;
use crate::expression::{Environment, Expression, Operator};
use crate::generator::edition::Edition;
use crate::generator::rng::Rng;
use crate::generator::small_run;
use crate::generator::widen::Run;
use crate::machine::Machine;
use crate::program::Program;
use crate::record::{record_bytes, Item};

/// The family's name, with which the names of its cases begin.
const FAMILY: &str = "sums";
/// The number of an expression without a value.
const NO_VALUE: u8 = 18;
/// How many judged runs each class has for each kind that its groups may have.
const JUDGED_PER_KIND: usize = 2;
/// The most bytes of a judged run's program and of its record.
const JUDGED_BYTES: usize = 150;

/// A refused row with these bytes.
fn refused_bytes(what: &str, inputs: [Vec<u8>; 2], number: u8, place: usize) -> Row {
    Row::refused(FAMILY, what, inputs, number, place)
}

/// A refused row of a program and items.
fn refused(what: &str, program: &Program, items: &[Item], number: u8, place: usize) -> Row {
    let inputs = [program.to_bytes(), record_bytes(items)];
    refused_bytes(what, inputs, number, place)
}

/// A row in which an expression of this item has no value.
fn without_value(what: &str, program: &Program, items: &[Item], place: usize) -> Row {
    let row = refused(what, program, items, NO_VALUE, place);
    row.with_listing(format!("refused 18 {place}\n"))
}

/// A row that is accepted with this answer and these cells, all others being 0 at the end.
fn accepted(
    what: &str,
    program: &Program,
    items: &[Item],
    answer: Expected,
    values: &[((usize, usize), u16)],
) -> Row {
    let last = cells_with(program, values);
    Row::accepted(FAMILY, what, (program, items), answer, last)
}

/// All rows of the check.
fn rows() -> Vec<Row> {
    let parts = [
        values::rows(),
        commands::rows(),
        holding::rows(),
        ranks::rows(),
        registers::rows(),
        faults::rows(),
        runs::rows(),
    ];
    parts.into_iter().flatten().collect()
}

/// A small random run, with a short program and record, that takes an expression at an edge.
fn edged_run(rng: &mut Rng, edition: Edition) -> Run {
    loop {
        let run = small_run(rng, edition);
        let lengths = [run.0.to_bytes().len(), record_bytes(&run.2).len()];
        let short = lengths.iter().all(|&length| length <= JUDGED_BYTES);
        if short && takes_edge(&run) {
            return run;
        }
    }
}

/// Whether an item of an accepted record takes an expression that holds a sum or product of 65,535
/// or a difference of 0.
fn takes_edge((program, start, items): &Run) -> bool {
    let mut machine = Machine::new(program, start);
    items.iter().any(|item| {
        let rank = item.act.rank();
        let environment = Environment {
            registers: &machine.rank(rank).registers.clone(),
            rank,
            ranks: program.ranks,
        };
        let taken = item
            .act
            .transition()
            .map(|taken| &program.transitions[taken]);
        let edge = |expression: &Expression| holds_edge(expression, &environment);
        let at_edge = taken.is_some_and(|taken| taken.expressions.iter().any(edge));
        machine.step(program, item).is_ok() && at_edge
    })
}

/// Whether an expression holds a sum or product of 65,535 or a difference of 0.
fn holds_edge(expression: &Expression, environment: &Environment) -> bool {
    let Expression::Binary(operator, first, second) = expression else {
        return false;
    };
    let value = expression.evaluate(environment);
    let at_edge = match operator {
        Operator::Sum | Operator::Product => value == Some(65_535),
        Operator::Difference => value == Some(0),
        Operator::Equal | Operator::Less => false,
    };
    at_edge || holds_edge(first, environment) || holds_edge(second, environment)
}

/// The file of #102; a row that the second program answers otherwise is a fault, and so is an
/// order or ring that the searches do not confirm.
pub fn file(seed: u64) -> Result<Named, String> {
    let mut cases = cases_by_hand(rows())?;
    cases.extend(judged_cases(&Source {
        family: "sums-judged",
        maker: edged_run,
        edition: Edition::Before103,
        seed,
        per_kind: JUDGED_PER_KIND,
    })?);
    let head = "# Sums that pass the range, #102 of document 02; answers worked out by hand, and \
        after them small\n# runs confirmed by the exhaustive judge.\n";
    Ok(Named::new("sums.txt", head, &cases))
}
