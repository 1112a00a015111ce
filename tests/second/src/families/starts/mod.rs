//! Cases of document 02's #103, readings at the start: numbers, places, orders, rings, cells, slips
//! and listings worked out by hand, for the writer and the reader of start bytes as well; then small
//! runs that the exhaustive judge confirms.

mod beside;
pub(super) mod build;
mod contents;
mod fields;
pub(super) mod lists;
mod loaded;
mod runs;

use super::chosen::{judged_cases, Source};
use super::row::{cells_with, Row};
use super::{cases_by_hand, Named};
use crate::corpus::Expected;
use crate::generator::edition::Edition;
use crate::generator::rng::Rng;
use crate::generator::widen::Run;
use crate::generator::{later_run, SMALL_RUNS};
use crate::machine::Start;
use crate::program::Program;
use crate::record::{record_bytes, Item};
use crate::replay::replay;

/// The family's name, with which the names of its cases begin.
const FAMILY: &str = "starts";
/// How many judged runs each class has for each kind that its groups may have.
const JUDGED_PER_KIND: usize = 3;
/// The most bytes of a judged run's program and of its record.
const JUDGED_BYTES: usize = 200;

/// A refused row with these bytes of program, start and record.
fn refused_bytes(what: &str, inputs: [Vec<u8>; 3], number: u8, place: usize) -> Row {
    let [program, start, record] = inputs;
    Row::refused(FAMILY, what, [program, record], number, place).from_start(start)
}

/// A refused row of a program, items and start bytes.
fn refused(
    what: &str,
    program: &Program,
    items: &[Item],
    start: Vec<u8>,
    number: u8,
    place: usize,
) -> Row {
    let inputs = [program.to_bytes(), start, record_bytes(items)];
    refused_bytes(what, inputs, number, place)
}

/// A row of a program, items and start bytes that is accepted with this answer and these cells, all
/// others being 0 at the end.
fn accepted(
    what: &str,
    program: &Program,
    items: &[Item],
    start: Vec<u8>,
    answer: Expected,
    values: &[((usize, usize), u16)],
) -> Row {
    let last = cells_with(program, values);
    Row::accepted(FAMILY, what, (program, items), answer, last).from_start(start)
}

/// All rows of the check.
fn rows() -> Vec<Row> {
    let parts = [
        fields::rows(),
        beside::rows(),
        contents::rows(),
        runs::rows(),
        loaded::rows(),
    ];
    parts.into_iter().flatten().collect()
}

/// A small random run, with a short program and record, that goes by its readings: from document
/// 01's start it would be refused.
fn run_by_readings(rng: &mut Rng, edition: Edition) -> Run {
    loop {
        let run = later_run(rng, SMALL_RUNS, edition);
        let (program, _, items) = &run;
        let lengths = [program.to_bytes().len(), record_bytes(items).len()];
        let short = lengths.iter().all(|&length| length <= JUDGED_BYTES);
        if short && replay(program, &Start::zero(program), items).is_err() {
            return run;
        }
    }
}

/// The file of #103; a row that the second program answers otherwise is a fault, and so is an
/// order or ring that the searches do not confirm.
pub fn file(seed: u64) -> Result<Named, String> {
    let mut cases = cases_by_hand(rows())?;
    cases.extend(lists::cases(seed)?);
    cases.extend(judged_cases(&Source {
        family: "starts-judged",
        maker: run_by_readings,
        edition: Edition::Before111,
        seed,
        per_kind: JUDGED_PER_KIND,
    })?);
    let head =
        "# Readings at the start, #103 of document 02; answers worked out by hand, and after \
        them small\n# runs confirmed by the exhaustive judge.\n";
    Ok(Named::new("starts.txt", head, &cases))
}
