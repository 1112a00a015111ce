//! Cases whose answers are worked out by hand.

use crate::corpus::{Case, CheckCase, Expected};
use crate::limits::Refusal;
use crate::program::Program;
use crate::record::{record_bytes, Item};

/// The length of a list that is long enough for every short case.
const ENTRIES: usize = 40;

/// A case whose answer is worked out by hand.
#[derive(Debug, Clone)]
pub struct Row {
    /// The case's name.
    pub name: String,
    /// The program bytes.
    pub program: Vec<u8>,
    /// The start bytes; none unless they are given.
    pub start: Vec<u8>,
    /// The record bytes.
    pub record: Vec<u8>,
    /// The length of the order list.
    pub order_entries: usize,
    /// The length of the cell list.
    pub cell_entries: usize,
    /// The answer by hand.
    pub answer: Expected,
    /// The cells by hand; none on a refusal.
    pub cells: Vec<u16>,
    /// The slip, if it is worked out by hand.
    pub slip: Option<Vec<u8>>,
    /// The listing, if it is worked out by hand.
    pub listing: Option<String>,
}

/// The order of so many groups as they are numbered.
pub fn own_order(groups: usize) -> Expected {
    Expected::Order((0..groups as u16).collect())
}

/// The cell list of a program: these cells, by rank and number, have these values, all others 0.
pub fn cells_with(program: &Program, values: &[((usize, usize), u16)]) -> Vec<u16> {
    let mut cells = vec![0; program.ranks * program.cells];
    for &((rank, cell), value) in values {
        cells[program.cells * (rank - 1) + cell] = value;
    }
    cells
}

impl Row {
    /// A row of a family with a refusal and long enough lists.
    pub fn refused(
        family: &str,
        what: &str,
        [program, record]: [Vec<u8>; 2],
        number: u8,
        place: usize,
    ) -> Row {
        Row {
            name: format!("{family}-{number}-{what}-at-{place}"),
            program,
            start: Vec::new(),
            record,
            order_entries: ENTRIES,
            cell_entries: ENTRIES,
            answer: Expected::Refused(Refusal { number, place }),
            cells: Vec::new(),
            slip: None,
            listing: None,
        }
    }

    /// A row of a family that is accepted with this answer and these last cells; both lists are two
    /// entries longer than they must be.
    pub fn accepted(
        family: &str,
        what: &str,
        (program, items): (&Program, &[Item]),
        answer: Expected,
        cells: Vec<u16>,
    ) -> Row {
        Row {
            name: format!("{family}-{what}"),
            program: program.to_bytes(),
            start: Vec::new(),
            record: record_bytes(items),
            order_entries: items.len() + 2,
            cell_entries: cells.len() + 2,
            answer,
            cells,
            slip: None,
            listing: None,
        }
    }

    /// The same row with start bytes.
    pub fn from_start(mut self, start: Vec<u8>) -> Row {
        self.start = start;
        self
    }

    /// The same row with its slip by hand.
    pub fn with_slip(mut self, slip: Vec<u8>) -> Row {
        self.slip = Some(slip);
        self
    }

    /// The same row with its listing by hand.
    pub fn with_listing(mut self, listing: String) -> Row {
        self.listing = Some(listing);
        self
    }

    /// The same row with lists of other lengths, which its name tells.
    pub fn with_lists(mut self, order_entries: usize, cell_entries: usize) -> Row {
        self.name = format!("{}-lists-{order_entries}-{cell_entries}", self.name);
        (self.order_entries, self.cell_entries) = (order_entries, cell_entries);
        self
    }

    /// The row as a case; it is a fault if the second program answers something else.
    pub fn case(self) -> Result<Case, String> {
        let (order, cells) = (self.order_entries, self.cell_entries);
        let case = CheckCase::answered(
            self.name,
            self.program,
            self.start,
            self.record,
            order,
            cells,
        );
        let by_hand = CheckCase {
            answer: self.answer,
            cells: self.cells,
            slip: self.slip.or(case.slip.clone()),
            listing: self.listing.unwrap_or(case.listing.clone()),
            ..case.clone()
        };
        let case = Case::Check(case);
        let by_hand = Case::Check(by_hand);
        if case == by_hand {
            return Ok(case);
        }
        let (found, right) = (case.to_text(), by_hand.to_text());
        Err(format!("{found}by hand\n{right}"))
    }
}
