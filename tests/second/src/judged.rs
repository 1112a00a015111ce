//! A subject's answers on small records, judged by the exhaustive search through plain runs: demand
//! 3 without arrows, and without the second program's own order or ring.

use crate::bytes::fill_words;
use crate::check::{last_cells, Accepted, Answer};
use crate::generator::Input;
use crate::groups::gather;
use crate::harness::{inner, lent, Observed};
use crate::judge::judge;
use crate::limits::{Outcome, Refusal};
use crate::order::Verdict;
use crate::program::Program;
use crate::record::read_record;
use crate::replay::replay;
use crate::start::start_of;
use std::collections::BTreeSet;
use std::fmt;

/// Judges what a subject did on a small input whose lists are long enough, and gives its verdict:
/// a ring exactly if no plain run has the record's trace; else an order that is such a run, with
/// the record's values and last contents. The lists must hold that and be fresh everywhere else.
pub fn judge_observed(input: &Input, observed: &Observed) -> Result<Verdict, String> {
    let verdict = verdict_of(observed)?;
    let accepted = accepted_with(input, verdict)
        .map_err(|refusal| format!("the record is no run of the program: {refusal:?}"))?;
    judge_numbers(&accepted.verdict, accepted.grouping.groups.len())?;
    judge(&accepted)?;
    judge_ring(&accepted.verdict)?;
    judge_lists(input, observed, &accepted)?;
    Ok(accepted.verdict)
}

/// The order or ring that a subject gave, as it stands in the order list.
pub(crate) fn verdict_of(observed: &Observed) -> Result<Verdict, String> {
    let mut list = observed.order.clone();
    let entries = inner(&mut list).chunks_exact(2);
    let room = entries.len();
    let numbers = |count| {
        if count > room {
            return Err(format!("{count} groups in a list of {room} entries"));
        }
        let number = |entry: &[u8]| usize::from(u16::from_be_bytes([entry[0], entry[1]]));
        Ok(entries.take(count).map(number).collect())
    };
    match observed.answer {
        Answer::Order(count) => numbers(count).map(Verdict::Order),
        Answer::Ring(count) => numbers(count).map(Verdict::Ring),
        Answer::Refused(Refusal { number, place }) => Err(format!(
            "refused {number} at {place}, but the record is a run of the program"
        )),
    }
}

/// The input's run with a verdict from elsewhere; no arrows are drawn.
pub(crate) fn accepted_with(input: &Input, verdict: Verdict) -> Outcome<Accepted> {
    let program = Program::read(&input.program)?;
    let start = start_of(&program, &input.start)?;
    let items = read_record(&input.record, &program)?;
    let run = replay(&program, &start, &items)?;
    let grouping = gather(&run.steps);
    Ok(Accepted {
        program,
        start,
        items,
        run,
        grouping,
        verdict,
    })
}

/// Judges the listed numbers: each is a group's, and none stands twice.
pub(crate) fn judge_numbers(verdict: &Verdict, groups: usize) -> Result<(), String> {
    let listed = verdict.groups();
    if listed.iter().any(|&group| group >= groups) {
        return Err(format!("{verdict:?}, but there are {groups} groups"));
    }
    let different: BTreeSet<usize> = listed.iter().copied().collect();
    if different.len() < listed.len() {
        return Err(format!("{verdict:?} lists a group twice"));
    }
    Ok(())
}

/// Judges how a ring is written: it has two groups at least, the lowest first.
fn judge_ring(verdict: &Verdict) -> Result<(), String> {
    match verdict {
        Verdict::Ring(ring) if ring.len() < 2 || ring.iter().min() != ring.first() => {
            Err(format!("{verdict:?} is not written as a ring"))
        }
        _ => Ok(()),
    }
}

/// Judges the lists' bytes: the last cells stand in their list, and all else is as it was lent.
fn judge_lists(input: &Input, observed: &Observed, accepted: &Accepted) -> Result<(), String> {
    let listed = accepted.verdict.groups().iter();
    let groups: Vec<u16> = listed.map(|&group| group as u16).collect();
    let mut order = lent(input.order_bytes);
    fill_words(inner(&mut order), &groups);
    if observed.order != order {
        return Err("the order list has changed beyond the groups listed".into());
    }
    let mut cells = lent(input.cell_bytes);
    fill_words(inner(&mut cells), &last_cells(&accepted.run.last));
    if observed.cells != cells {
        return Err("the cell list is not the last cells, or has changed beyond them".into());
    }
    Ok(())
}

/// How often each kind of verdict was confirmed.
#[derive(Debug, Default, Clone, PartialEq, Eq)]
pub struct Verdicts {
    /// Orders by the groups' numbers.
    pub own_orders: usize,
    /// Orders in which a group comes before one of a lower number.
    pub other_orders: usize,
    /// Orders of no groups.
    pub empty_orders: usize,
    /// Rings.
    pub rings: usize,
}

impl Verdicts {
    /// Counts a verdict.
    pub fn count(&mut self, verdict: &Verdict) {
        match verdict {
            Verdict::Order(order) if order.is_empty() => self.empty_orders += 1,
            Verdict::Order(order) if order.is_sorted() => self.own_orders += 1,
            Verdict::Order(_) => self.other_orders += 1,
            Verdict::Ring(_) => self.rings += 1,
        }
    }
}

impl fmt::Display for Verdicts {
    fn fmt(&self, out: &mut fmt::Formatter) -> fmt::Result {
        writeln!(out, "the record's own order  {:8}", self.own_orders)?;
        writeln!(out, "another order           {:8}", self.other_orders)?;
        writeln!(out, "order of 0              {:8}", self.empty_orders)?;
        writeln!(out, "rings                   {:8}", self.rings)
    }
}
