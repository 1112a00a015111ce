//! The whole check, on lists of 16-bit entries and on bytes.

use crate::bytes::fill_words;
use crate::groups::{arrows, gather, Grouping};
use crate::limits::{number, refuse, Outcome, Refusal};
use crate::machine::{Machine, Run, Start};
use crate::order::{decide, Verdict};
use crate::program::Program;
use crate::record::{read_record, Item};
use crate::replay::replay;
use crate::start::start_of;

/// An answer of the whole check; order and ring carry the count of entries filled.
#[derive(Debug, Clone, Copy, PartialEq, Eq)]
pub enum Answer {
    /// An order of so many groups.
    Order(usize),
    /// A ring of so many groups.
    Ring(usize),
    /// A refusal with its number and place.
    Refused(Refusal),
}

/// All that is known of an accepted run, before any lent memory is looked at.
#[derive(Debug, Clone)]
pub struct Accepted {
    /// The program.
    pub program: Program,
    /// The start.
    pub start: Start,
    /// The record's items.
    pub items: Vec<Item>,
    /// The run they make.
    pub run: Run,
    /// Its groups.
    pub grouping: Grouping,
    /// Its order or ring.
    pub verdict: Verdict,
}

/// Reads program, start and record, replays, and decides; refuses with 1 to 13, 18 or 19.
pub fn accept(program: &[u8], start: &[u8], record: &[u8]) -> Outcome<Accepted> {
    let program = Program::read(program)?;
    let start = start_of(&program, start)?;
    let items = read_record(record, &program)?;
    accept_items(program, start, items)
}

/// Replays items that have been read from a start, and decides; refuses with 7 to 13 or 18.
pub fn accept_items(program: Program, start: Start, items: Vec<Item>) -> Outcome<Accepted> {
    let run = replay(&program, &start, &items)?;
    let grouping = gather(&run.steps);
    let arrows = arrows(&run.steps, &grouping.group_of);
    let verdict = decide(grouping.groups.len(), &arrows);
    Ok(Accepted {
        program,
        start,
        items,
        run,
        grouping,
        verdict,
    })
}

/// The last cell values, rank 1 first.
pub fn last_cells(machine: &Machine) -> Vec<u16> {
    machine
        .ranks
        .iter()
        .flat_map(|rank| rank.cells.iter().copied())
        .collect()
}

/// What a check says and what it fills into the two lists.
#[derive(Debug, Clone, PartialEq, Eq)]
pub struct Filled {
    /// The answer.
    pub answer: Answer,
    /// The group numbers for the order list.
    pub groups: Vec<u16>,
    /// The values for the cell list.
    pub cells: Vec<u16>,
}

/// The answer with its entries, for lists of so many entries; nothing is filled on a refusal.
pub fn answer(
    program: &[u8],
    start: &[u8],
    record: &[u8],
    order_entries: usize,
    cell_entries: usize,
) -> Filled {
    filled(accept(program, start, record), order_entries, cell_entries)
}

/// The answer with its entries for what was accepted or refused.
fn filled(accepted: Outcome<Accepted>, order_entries: usize, cell_entries: usize) -> Filled {
    let fitted = accepted.and_then(|accepted| fit(&accepted, order_entries, cell_entries));
    match fitted {
        Ok(filled) => filled,
        Err(refusal) => Filled {
            answer: Answer::Refused(refusal),
            groups: Vec::new(),
            cells: Vec::new(),
        },
    }
}

/// An accepted run's answer, but a list that is too short is an early return: 14, then 15.
fn fit(accepted: &Accepted, order_entries: usize, cell_entries: usize) -> Outcome<Filled> {
    let group_count = accepted.grouping.groups.len();
    if order_entries < group_count {
        return refuse(number::ORDER_SHORT, group_count);
    }
    let cells = last_cells(&accepted.run.last);
    if cell_entries < cells.len() {
        return refuse(number::MEMORY_SHORT, cells.len());
    }
    let groups: Vec<u16> = accepted
        .verdict
        .groups()
        .iter()
        .map(|&group| group as u16)
        .collect();
    let answer = match accepted.verdict {
        Verdict::Order(_) => Answer::Order(groups.len()),
        Verdict::Ring(_) => Answer::Ring(groups.len()),
    };
    Ok(Filled {
        answer,
        groups,
        cells,
    })
}

/// The whole check on lent lists of 16-bit entries.
pub fn check(
    program: &[u8],
    start: &[u8],
    record: &[u8],
    order: &mut [u16],
    cells: &mut [u16],
) -> Answer {
    let filled = answer(program, start, record, order.len(), cells.len());
    order[..filled.groups.len()].copy_from_slice(&filled.groups);
    cells[..filled.cells.len()].copy_from_slice(&filled.cells);
    filled.answer
}

/// The whole check on lent bytes, two an entry, big-endian; an odd last byte is never used.
pub fn check_bytes(
    program: &[u8],
    start: &[u8],
    record: &[u8],
    order: &mut [u8],
    cells: &mut [u8],
) -> Answer {
    fill_bytes(accept(program, start, record), order, cells)
}

/// Fills lent bytes with what was accepted, if they are long enough, and answers.
pub fn fill_bytes(accepted: Outcome<Accepted>, order: &mut [u8], cells: &mut [u8]) -> Answer {
    let filled = filled(accepted, order.len() / 2, cells.len() / 2);
    fill_words(order, &filled.groups);
    fill_words(cells, &filled.cells);
    filled.answer
}
