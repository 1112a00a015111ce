//! The corpus form: cases as text, one key and value a line; the grammar stands with the vectors.

use crate::check::{accept, answer, Answer};
use crate::generator::Input;
use crate::limits::Refusal;
use crate::listing::listing_text;
use crate::slip::{read_slip, slip_of};
use crate::start::{read_start, write_start};

/// An answer with the group numbers it lists.
#[derive(Debug, Clone, PartialEq, Eq)]
pub enum Expected {
    /// An order of these groups.
    Order(Vec<u16>),
    /// A ring of these groups.
    Ring(Vec<u16>),
    /// A refusal.
    Refused(Refusal),
}

/// One case of the whole check.
#[derive(Debug, Clone, PartialEq, Eq)]
pub struct CheckCase {
    /// The case's name, unlike every other.
    pub name: String,
    /// The program bytes.
    pub program: Vec<u8>,
    /// The start bytes.
    pub start: Vec<u8>,
    /// The record bytes.
    pub record: Vec<u8>,
    /// The length of the order list.
    pub order_entries: usize,
    /// The length of the cell list.
    pub cell_entries: usize,
    /// The answer.
    pub answer: Expected,
    /// The cell list's first entries; none on a refusal.
    pub cells: Vec<u16>,
    /// The slip, if program, start and record are accepted.
    pub slip: Option<Vec<u8>>,
    /// The whole text of the listing.
    pub listing: String,
}

/// One case of the slip reader.
#[derive(Debug, Clone, PartialEq, Eq)]
pub struct SlipCase {
    /// The case's name, unlike every other.
    pub name: String,
    /// The N given to the reader.
    pub ranks: usize,
    /// The slip.
    pub slip: Vec<u8>,
    /// The length of the list of counts.
    pub counts_entries: usize,
    /// The N counts, or the refusal.
    pub answer: Result<Vec<u16>, Refusal>,
}

/// One case of the writer of start bytes.
#[derive(Debug, Clone, PartialEq, Eq)]
pub struct StartWriteCase {
    /// The case's name, unlike every other.
    pub name: String,
    /// The program bytes.
    pub program: Vec<u8>,
    /// The entries of the cell list.
    pub cells: Vec<u16>,
    /// The length of the lent memory in bytes.
    pub start_bytes: usize,
    /// The start bytes, or the refusal.
    pub answer: Result<Vec<u8>, Refusal>,
}

/// One case of the reader of start bytes as a call.
#[derive(Debug, Clone, PartialEq, Eq)]
pub struct StartReadCase {
    /// The case's name, unlike every other.
    pub name: String,
    /// The program bytes.
    pub program: Vec<u8>,
    /// The start bytes.
    pub start: Vec<u8>,
    /// The length of the cell list.
    pub cell_entries: usize,
    /// The N × A cells, or the refusal.
    pub answer: Result<Vec<u16>, Refusal>,
}

/// A case of any form.
#[derive(Debug, Clone, PartialEq, Eq)]
pub enum Case {
    /// A case of the whole check.
    Check(CheckCase),
    /// A case of the slip reader.
    Slip(SlipCase),
    /// A case of the writer of start bytes.
    StartWrite(StartWriteCase),
    /// A case of the reader of start bytes.
    StartRead(StartReadCase),
}

impl CheckCase {
    /// The case with the second program's answers.
    pub fn answered(
        name: String,
        program: Vec<u8>,
        start: Vec<u8>,
        record: Vec<u8>,
        order_entries: usize,
        cell_entries: usize,
    ) -> CheckCase {
        let filled = answer(&program, &start, &record, order_entries, cell_entries);
        let expected = match filled.answer {
            Answer::Order(_) => Expected::Order(filled.groups),
            Answer::Ring(_) => Expected::Ring(filled.groups),
            Answer::Refused(refusal) => Expected::Refused(refusal),
        };
        let slip = accept(&program, &start, &record)
            .ok()
            .map(|accepted| slip_of(&accepted));
        let listing = listing_text(&program, &start, &record).0;
        let cells = filled.cells;
        let answer = expected;
        CheckCase {
            name,
            program,
            start,
            record,
            order_entries,
            cell_entries,
            answer,
            cells,
            slip,
            listing,
        }
    }

    /// The case of an input, without a name, with the second program's answers.
    pub fn of_input(input: Input) -> CheckCase {
        CheckCase::answered(
            String::new(),
            input.program,
            input.start,
            input.record,
            input.order_bytes / 2,
            input.cell_bytes / 2,
        )
    }
}

impl SlipCase {
    /// The case with the second program's answer.
    pub fn answered(name: String, ranks: usize, slip: Vec<u8>, counts_entries: usize) -> SlipCase {
        let mut counts = vec![0; counts_entries];
        let answer = read_slip(ranks, &slip, &mut counts).map(|()| counts[..ranks].to_vec());
        SlipCase {
            name,
            ranks,
            slip,
            counts_entries,
            answer,
        }
    }
}

impl StartWriteCase {
    /// The case with the second program's answer.
    pub fn answered(
        name: String,
        program: Vec<u8>,
        cells: Vec<u16>,
        start_bytes: usize,
    ) -> StartWriteCase {
        let mut memory = vec![0; start_bytes];
        let written = write_start(&program, &cells, &mut memory);
        let answer = written.map(|length| memory[..length].to_vec());
        StartWriteCase {
            name,
            program,
            cells,
            start_bytes,
            answer,
        }
    }
}

impl StartReadCase {
    /// The case with the second program's answer.
    pub fn answered(
        name: String,
        program: Vec<u8>,
        start: Vec<u8>,
        cell_entries: usize,
    ) -> StartReadCase {
        let mut cells = vec![0; cell_entries];
        let read = read_start(&program, &start, &mut cells);
        let answer = read.map(|entries| cells[..entries].to_vec());
        StartReadCase {
            name,
            program,
            start,
            cell_entries,
            answer,
        }
    }
}

impl Case {
    /// The case's name.
    pub fn name(&self) -> &str {
        match self {
            Case::Check(case) => &case.name,
            Case::Slip(case) => &case.name,
            Case::StartWrite(case) => &case.name,
            Case::StartRead(case) => &case.name,
        }
    }

    /// The case in the corpus form.
    pub fn to_text(&self) -> String {
        match self {
            Case::Check(case) => check_text(case),
            Case::Slip(case) => slip_text(case),
            Case::StartWrite(case) => start_write_text(case),
            Case::StartRead(case) => start_read_text(case),
        }
    }
}

/// Bytes as lower-case hexadecimal digits, or a dash for none.
pub fn to_hex(bytes: &[u8]) -> String {
    if bytes.is_empty() {
        return "-".into();
    }
    bytes.iter().map(|byte| format!("{byte:02x}")).collect()
}

/// Words each with a space before it.
fn spaced(words: &[u16]) -> String {
    words.iter().map(|word| format!(" {word}")).collect()
}

/// A check case as text.
fn check_text(case: &CheckCase) -> String {
    let mut text = format!("case {}\n", case.name);
    text.push_str(&format!("program {}\n", to_hex(&case.program)));
    if !case.start.is_empty() {
        text.push_str(&format!("start {}\n", to_hex(&case.start)));
    }
    text.push_str(&format!("record {}\n", to_hex(&case.record)));
    text.push_str(&format!("order-entries {}\n", case.order_entries));
    text.push_str(&format!("cell-entries {}\n", case.cell_entries));
    match &case.answer {
        Expected::Order(groups) => text.push_str(&format!("answer order{}\n", spaced(groups))),
        Expected::Ring(groups) => text.push_str(&format!("answer ring{}\n", spaced(groups))),
        Expected::Refused(refusal) => text.push_str(&refusal_text(refusal)),
    }
    if !matches!(case.answer, Expected::Refused(_)) {
        text.push_str(&format!("cells{}\n", spaced(&case.cells)));
    }
    if let Some(slip) = &case.slip {
        text.push_str(&format!("slip {}\n", to_hex(slip)));
    }
    for line in case.listing.lines() {
        text.push_str(&format!("listing {line}\n"));
    }
    text.push_str("end\n");
    text
}

/// A slip case as text.
fn slip_text(case: &SlipCase) -> String {
    let mut text = format!("slip-case {}\n", case.name);
    text.push_str(&format!("ranks {}\n", case.ranks));
    text.push_str(&format!("slip {}\n", to_hex(&case.slip)));
    text.push_str(&format!("counts-entries {}\n", case.counts_entries));
    match &case.answer {
        Ok(counts) => text.push_str(&format!("answer counts{}\n", spaced(counts))),
        Err(refusal) => text.push_str(&refusal_text(refusal)),
    }
    text.push_str("end\n");
    text
}

/// A case of the writer of start bytes as text.
fn start_write_text(case: &StartWriteCase) -> String {
    let mut text = format!("start-write-case {}\n", case.name);
    text.push_str(&format!("program {}\n", to_hex(&case.program)));
    text.push_str(&format!("cells{}\n", spaced(&case.cells)));
    text.push_str(&format!("start-bytes {}\n", case.start_bytes));
    match &case.answer {
        Ok(start) => text.push_str(&format!("answer start {}\n", to_hex(start))),
        Err(refusal) => text.push_str(&refusal_text(refusal)),
    }
    text.push_str("end\n");
    text
}

/// A case of the reader of start bytes as text.
fn start_read_text(case: &StartReadCase) -> String {
    let mut text = format!("start-read-case {}\n", case.name);
    text.push_str(&format!("program {}\n", to_hex(&case.program)));
    text.push_str(&format!("start {}\n", to_hex(&case.start)));
    text.push_str(&format!("cell-entries {}\n", case.cell_entries));
    match &case.answer {
        Ok(cells) => text.push_str(&format!("answer cells{}\n", spaced(cells))),
        Err(refusal) => text.push_str(&refusal_text(refusal)),
    }
    text.push_str("end\n");
    text
}

/// The answer line of a refusal.
fn refusal_text(refusal: &Refusal) -> String {
    format!("answer refused {} {}\n", refusal.number, refusal.place)
}
