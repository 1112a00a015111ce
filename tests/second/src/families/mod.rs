//! The families of the corpus, made the same from the same seed.

pub mod base;
pub mod chosen;
pub mod extremes;
pub mod former_ring;
pub mod neighbours;
pub mod parts;
pub mod points;
pub mod ranks;
pub mod replay_table;
pub mod row;
pub mod script;
pub mod shortest;
pub mod slips;
pub mod starts;
pub mod sums;
pub mod table;
pub mod transitions;

use crate::bounded::judge_bounded;
use crate::check::accept;
use crate::corpus::{Case, CheckCase};
use crate::judge::judge_order;
use crate::limits::{MAX_CELLS, MAX_ITEMS, MAX_SHORT_MAP_RANKS};
use crate::order::Verdict;

/// A corpus file: its name and its text.
#[derive(Debug, Clone, PartialEq, Eq)]
pub struct Named {
    /// The file's name.
    pub name: &'static str,
    /// The file's text.
    pub text: String,
}

impl Named {
    /// A file of these cases under a head of comments.
    pub fn new(name: &'static str, head: &str, cases: &[Case]) -> Named {
        let mut text = head.to_string();
        for case in cases {
            text.push('\n');
            text.push_str(&case.to_text());
        }
        Named { name, text }
    }
}

/// All corpus files that are made and not written by hand.
pub fn files(seed: u64) -> Result<Vec<Named>, String> {
    Ok(vec![
        table_file()?,
        extremes_file()?,
        chosen::judged_file(seed)?,
        chosen::refused_file(seed)?,
        slips::file(seed)?,
        transitions::file()?,
        ranks::file(seed)?,
        neighbours::file(seed)?,
        sums::file(seed)?,
        starts::file(seed)?,
        shortest::file(seed)?,
        points::file()?,
    ])
}

/// The file of the table's rows; a row that is answered otherwise is a fault.
fn table_file() -> Result<Named, String> {
    let rows = table::rows().into_iter();
    let cases: Result<Vec<Case>, String> = rows.map(row::Row::case).collect();
    let head = "# Every row of document 01's table; numbers and places worked out by hand.\n";
    Ok(Named::new("table.txt", head, &cases?))
}

/// Places a bounded search may visit for a case.
const SEARCH_LIMIT: usize = 20_000;

/// If an input is accepted, its order must be that of a plain run, and the search, if it comes to
/// an end, must agree.
fn judge_accepted(program: &[u8], start: &[u8], record: &[u8]) -> Result<(), String> {
    if let Ok(accepted) = accept(program, start, record) {
        if let Verdict::Order(order) = &accepted.verdict {
            judge_order(&accepted, order)?;
        }
        judge_bounded(&accepted, SEARCH_LIMIT)?;
    }
    Ok(())
}

/// The cases of rows by hand; one that the second program answers otherwise is a fault, and so is an
/// order or ring that the searches do not confirm.
fn cases_by_hand(rows: Vec<row::Row>) -> Result<Vec<Case>, String> {
    let mut cases = Vec::new();
    for row in rows {
        judge_accepted(&row.program, &row.start, &row.record)?;
        cases.push(row.case()?);
    }
    Ok(cases)
}

/// The file of extremes; every order is replayed as a plain run, and the searches that come to an
/// end must agree.
fn extremes_file() -> Result<Named, String> {
    let mut cases = Vec::new();
    for extreme in extremes::extremes() {
        judge_accepted(&extreme.program, &[], &extreme.record)?;
        let name = extreme.name.to_string();
        let (program, record) = (extreme.program, extreme.record);
        // the extremes are from before #105 and have at most eight ranks
        let lists = (MAX_ITEMS, MAX_SHORT_MAP_RANKS * MAX_CELLS);
        cases.push(Case::Check(CheckCase::answered(
            name,
            program,
            Vec::new(),
            record,
            lists.0,
            lists.1,
        )));
    }
    let head = "# Extremes: the limits of document 01 and the long ways round; run m among them.\n";
    Ok(Named::new("extremes.txt", head, &cases))
}
