//! Cases of document 02's #107, more than 128 transitions: numbers, places, orders, rings and cells
//! worked out by hand.

pub(super) mod build;
mod counts;
mod fields;
mod limits;
mod maps;
mod replay;
mod runs;

use super::row::{own_order, Row};
use super::{cases_by_hand, Named};
use crate::corpus::Expected;
use crate::program::Program;
use crate::record::{record_bytes, Item};

/// The family's name, with which the names of its cases begin.
const FAMILY: &str = "transitions";

/// A refused row with these bytes.
fn refused_bytes(what: &str, inputs: [Vec<u8>; 2], number: u8, place: usize) -> Row {
    Row::refused(FAMILY, what, inputs, number, place)
}

/// A refused row of a program and items, both readable.
fn refused(what: &str, program: &Program, items: &[Item], number: u8, place: usize) -> Row {
    let inputs = [program.to_bytes(), record_bytes(items)];
    refused_bytes(what, inputs, number, place)
}

/// A row that is accepted with this answer and these last cells.
fn accepted(
    what: &str,
    program: &Program,
    items: &[Item],
    answer: Expected,
    cells: Vec<u16>,
) -> Row {
    Row::accepted(FAMILY, what, (program, items), answer, cells)
}

/// All rows.
fn rows() -> Vec<Row> {
    let parts = [
        runs::rows(),
        counts::rows(),
        fields::rows(),
        maps::rows(),
        replay::rows(),
        limits::rows(),
    ];
    parts.into_iter().flatten().collect()
}

/// The file of #107; a row that the second program answers otherwise is a fault, and so is an
/// order or ring that the searches do not confirm.
pub fn file() -> Result<Named, String> {
    let cases = cases_by_hand(rows())?;
    let head =
        "# More than 128 transitions, #107 of document 02; all answers worked out by hand.\n";
    Ok(Named::new("transitions.txt", head, &cases))
}
