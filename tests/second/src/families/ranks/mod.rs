//! Cases of document 02's #105, sixteen ranks: N of 8, 9, 15 and 16 wherever a rank or N appears.
//! Numbers, places, orders, rings, cells, slips and listings worked out by hand; then small runs
//! that the exhaustive judge confirms.

mod fields;
mod header;
mod limits;
mod replay;
mod runs;
mod slip_reader;
mod slip_writer;

use super::chosen::{renewed_cases, Source};
use super::row::{own_order, Row};
use super::{cases_by_hand, Named};
use crate::corpus::Expected;
use crate::generator::edition::Edition;
use crate::generator::many_ranks;
use crate::program::{Program, Transition};
use crate::record::{record_bytes, Item};

/// The family's name, with which the names of its cases begin.
const FAMILY: &str = "ranks";
/// The numbers of ranks about each limit: the last with a map of one byte, the first with a map of
/// two, the last that N may not reach, and the most.
const SIZES: [usize; 4] = [8, 9, 15, 16];
/// How many judged runs each class has for each kind that its groups may have.
const JUDGED_PER_KIND: usize = 3;
/// Cells of each rank, unless a case says otherwise.
const CELLS: usize = 2;

/// A program of so many ranks, of two cells each, with these transitions: R 1, Q 1, S 2.
fn machine(ranks: usize, transitions: &[Transition]) -> Program {
    Program {
        ranks,
        cells: CELLS,
        registers: 1,
        queues: 1,
        states: 2,
        transitions: transitions.to_vec(),
    }
}

/// The cell list of a program: these cells have these values, all others 0.
fn cells(program: &Program, values: &[((usize, usize), usize)]) -> Vec<u16> {
    let mut cells = vec![0; program.ranks * program.cells];
    for &((rank, cell), value) in values {
        cells[program.cells * (rank - 1) + cell] = value as u16;
    }
    cells
}

/// A refused row with these bytes.
fn refused_bytes(what: &str, inputs: [Vec<u8>; 2], number: u8, place: usize) -> Row {
    Row::refused(FAMILY, what, inputs, number, place)
}

/// A refused row of a program and items.
fn refused(what: &str, program: &Program, items: &[Item], number: u8, place: usize) -> Row {
    let inputs = [program.to_bytes(), record_bytes(items)];
    refused_bytes(what, inputs, number, place)
}

/// A row that is accepted with this answer and these cells, all others being 0 at the end.
fn accepted(
    what: &str,
    program: &Program,
    items: &[Item],
    answer: Expected,
    values: &[((usize, usize), usize)],
) -> Row {
    let last = cells(program, values);
    Row::accepted(FAMILY, what, (program, items), answer, last)
}

/// All rows of the check.
fn rows() -> Vec<Row> {
    let parts = [
        header::rows(),
        runs::rows(),
        slip_writer::rows(),
        fields::rows(),
        replay::rows(),
        limits::rows(),
    ];
    parts.into_iter().flatten().collect()
}

/// The file of #105; a row that the second program answers otherwise is a fault, and so is an
/// order or ring that the searches do not confirm.
pub fn file(seed: u64) -> Result<Named, String> {
    let mut cases = cases_by_hand(rows())?;
    cases.extend(slip_reader::cases()?);
    let dated = Source {
        family: "ranks-judged",
        maker: many_ranks::small_run,
        edition: Edition::Before102,
        seed,
        per_kind: JUDGED_PER_KIND,
    };
    cases.extend(renewed_cases(&dated, "ranks-judged-later")?);
    let head =
        "# Sixteen ranks, #105 of document 02; answers worked out by hand, and after them small \
        runs\n# confirmed by the exhaustive judge.\n";
    Ok(Named::new("ranks.txt", head, &cases))
}
