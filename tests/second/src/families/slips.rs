//! Slip cases: by hand for each clause of document 01, then generated ones.

use super::Named;
use crate::corpus::{Case, SlipCase};
use crate::generator::slips::slip_input_of_document_01;
use crate::limits::Refusal;

/// How many generated slip cases there are.
const GENERATED: u64 = 60;

/// A slip case by hand: what it is, N, slip, list length, and the counts or the refusal.
pub type Row = (
    &'static str,
    usize,
    &'static [u8],
    usize,
    Result<&'static [u16], (u8, usize)>,
);

/// The slip cases by hand.
const ROWS: [Row; 32] = [
    ("no-rank", 1, &[0], 1, Ok(&[0])),
    ("no-rank-of-8", 8, &[0], 8, Ok(&[0, 0, 0, 0, 0, 0, 0, 0])),
    ("one", 1, &[1, 0, 1], 1, Ok(&[1])),
    ("count-1024", 1, &[1, 4, 0], 1, Ok(&[1024])),
    ("second-of-3", 3, &[2, 0, 7], 3, Ok(&[0, 7, 0])),
    ("first-and-third", 3, &[5, 0, 7, 1, 0], 3, Ok(&[7, 0, 256])),
    (
        "last-of-8",
        8,
        &[128, 3, 255],
        8,
        Ok(&[0, 0, 0, 0, 0, 0, 0, 1023]),
    ),
    ("entries-beyond", 2, &[3, 0, 4, 0, 3], 5, Ok(&[4, 3])),
    ("all-1024", 2, &[3, 4, 0, 4, 0], 2, Ok(&[1024, 1024])),
    ("n-0", 0, &[0], 8, Err((16, 0))),
    // with #105 the map of nine ranks has two bytes
    ("n-9-half-a-map", 9, &[0], 9, Err((16, 1))),
    ("n-0-before-short-list", 0, &[0], 0, Err((16, 0))),
    ("n-9-and-empty", 9, &[], 0, Err((16, 0))),
    ("n-65535", 65535, &[1, 0, 1], 8, Err((16, 0))),
    ("empty", 1, &[], 1, Err((16, 0))),
    ("bit-above-1", 1, &[2, 0, 1], 1, Err((16, 0))),
    ("bit-above-7", 7, &[128, 0, 1], 7, Err((16, 0))),
    ("all-bits-above-1", 1, &[255], 1, Err((16, 0))),
    ("count-0", 1, &[1, 0, 0], 1, Err((16, 1))),
    ("count-1025", 1, &[1, 4, 1], 1, Err((16, 1))),
    ("count-65535", 1, &[1, 255, 255], 1, Err((16, 1))),
    ("second-count-0", 2, &[3, 0, 1, 0, 0], 2, Err((16, 3))),
    (
        "third-count-1025",
        4,
        &[14, 0, 1, 0, 2, 4, 1],
        4,
        Err((16, 5)),
    ),
    ("no-count", 1, &[1], 1, Err((16, 1))),
    ("half-a-count", 1, &[1, 0], 1, Err((16, 2))),
    ("half-a-second-count", 2, &[3, 0, 1, 4], 2, Err((16, 4))),
    ("one-left", 1, &[0, 0], 1, Err((16, 1))),
    (
        "one-left-after-counts",
        2,
        &[3, 0, 1, 0, 2, 0],
        2,
        Err((16, 5)),
    ),
    ("count-before-left-over", 1, &[1, 0, 0, 9], 1, Err((16, 1))),
    ("list-short", 2, &[3, 0, 1, 0, 2], 1, Err((15, 2))),
    ("list-empty", 8, &[0], 0, Err((15, 8))),
    ("16-before-15", 2, &[3, 0, 1, 0, 2, 0], 0, Err((16, 5))),
];

/// Slip cases by hand, their names begun so; one that the second program answers otherwise is a
/// fault.
pub fn by_hand(family: &str, rows: &[Row]) -> Result<Vec<Case>, String> {
    let mut cases = Vec::new();
    for &(what, ranks, slip, entries, answer) in rows {
        let case = SlipCase::answered(format!("{family}-{what}"), ranks, slip.to_vec(), entries);
        let by_hand = answer
            .map(<[u16]>::to_vec)
            .map_err(|(number, place)| Refusal { number, place });
        if case.answer != by_hand {
            return Err(format!(
                "{}: {:?}, by hand {by_hand:?}",
                case.name, case.answer
            ));
        }
        cases.push(Case::Slip(case));
    }
    Ok(cases)
}

/// All slip cases: by hand, then generated.
pub fn cases(seed: u64) -> Result<Vec<Case>, String> {
    let mut cases = by_hand("slip", &ROWS)?;
    for index in 0..GENERATED {
        let input = slip_input_of_document_01(seed, index);
        let name = format!("slip-generated-{index}");
        let case = SlipCase::answered(name, input.ranks, input.slip, input.counts_entries);
        cases.push(Case::Slip(case));
    }
    Ok(cases)
}

/// The file of slip cases.
pub fn file(seed: u64) -> Result<Named, String> {
    let head = "# Slip cases: by hand for each clause of document 01, then generated ones.\n";
    Ok(Named::new("slips.txt", head, &cases(seed)?))
}
