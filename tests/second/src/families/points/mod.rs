//! Cases for points that the other families tell apart seldom or not at all: which group comes next
//! and which ring first, what each token gives, each kind's word, lengths that just fit, and numbers
//! about the limits of one byte. All answers are worked out by hand.

mod fields;
mod groups;
mod lists;
mod readings;
mod values;

use super::row::{cells_with, Row};
use super::{cases_by_hand, Named};
use crate::corpus::Expected;
use crate::program::Program;
use crate::record::{record_bytes, Item};

/// The family's name, with which the names of its cases of the check begin.
const FAMILY: &str = "points";

/// A refused row of a program and items.
fn refused(what: &str, program: &Program, items: &[Item], number: u8, place: usize) -> Row {
    let inputs = [program.to_bytes(), record_bytes(items)];
    Row::refused(FAMILY, what, inputs, number, place)
}

/// A row that is accepted with this answer and these cells, all others being 0 at the end.
fn accepted(
    what: &str,
    program: &Program,
    items: &[Item],
    answer: Expected,
    values: &[((usize, usize), u16)],
) -> Row {
    let last = cells_with(program, values);
    Row::accepted(FAMILY, what, (program, items), answer, last)
}

/// The file; a row that the second program answers otherwise is a fault, and so is an order or ring
/// that the searches do not confirm.
pub fn file() -> Result<Named, String> {
    let parts = [
        groups::rows(),
        values::rows(),
        lists::rows(),
        fields::rows(),
        readings::rows(),
    ];
    let mut cases = cases_by_hand(parts.into_iter().flatten().collect())?;
    cases.extend(readings::calls()?);
    let head = "# Points that the other files tell apart seldom or not at all; all answers worked \
        out by hand.\n";
    Ok(Named::new("points.txt", head, &cases))
}
