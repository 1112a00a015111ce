//! Cases of document 02's #111, the shortest ring: rings, orders, cells, slips and listings worked
//! out by hand; then small runs that the searches confirm.

mod beside;
mod cases;
mod series;

use super::former_ring::former_groups;
use super::row::{cells_with, Row};
use super::script::Script;
use super::{cases_by_hand, Named};
use crate::check::{accept, Accepted};
use crate::corpus::{Case, CheckCase, Expected};
use crate::generator::edition::Edition;
use crate::generator::rings::small_run;
use crate::generator::rng::Rng;
use crate::groups::arrows;
use crate::judge::judge;
use crate::order::{ring_by_breadth, ring_of_all_walks, Verdict};
use crate::record::record_bytes;
use crate::start::shortest_bytes;

/// The family's name, with which the names of its cases begin.
const FAMILY: &str = "shortest";
/// How many judged runs there are.
const JUDGED: usize = 30;
/// The most bytes of a judged run's program.
const JUDGED_BYTES: usize = 250;
/// All closed walks are searched for records of so many groups, and for rings of at most half as
/// many in longer ones.
const WALKED: usize = 12;

/// The accepted row of a record with this answer and these values at the end, all other cells 0.
fn accepted(
    what: &str,
    script: &Script,
    answer: Expected,
    values: &[((usize, usize), u16)],
) -> Row {
    let Script { program, items, .. } = script;
    let last = cells_with(program, values);
    Row::accepted(FAMILY, what, (program, items), answer, last)
}

/// The accepted row of these words with a ring, all cells 0.
fn ring(what: &str, words: &str, ring: Vec<u16>) -> Row {
    accepted(what, &Script::of(words), Expected::Ring(ring), &[])
}

/// All rows.
fn rows() -> Vec<Row> {
    let parts = [cases::rows(), series::rows(), beside::rows()];
    parts.into_iter().flatten().collect()
}

/// An accepted run's ring must be the one found breadth first and, unless that is too long a
/// search, the one among all closed walks; with an order there must be none.
fn confirm(accepted: &Accepted) -> Result<(), String> {
    let count = accepted.grouping.groups.len();
    let arrows = arrows(&accepted.run.steps, &accepted.grouping.group_of);
    let ring = match &accepted.verdict {
        Verdict::Order(_) => None,
        Verdict::Ring(ring) => Some(ring.clone()),
    };
    let short = ring.as_ref().is_some_and(|ring| ring.len() <= WALKED / 2);
    let walked = count <= WALKED || short;
    if ring_by_breadth(count, &arrows) != ring {
        return Err(format!("{ring:?}, but another is found breadth first"));
    }
    if walked && ring_of_all_walks(count, &arrows) != ring {
        return Err(format!("{ring:?}, but another is among all closed walks"));
    }
    Ok(())
}

/// Small runs whose ring is another than document 01's, the first so many under the seed.
fn judged_cases(seed: u64) -> Result<Vec<Case>, String> {
    let mut cases = Vec::new();
    for index in 0.. {
        if cases.len() == JUDGED {
            break;
        }
        let (program, start, items) = small_run(&mut Rng::new(seed, index), Edition::Today);
        let (program, record) = (program.to_bytes(), record_bytes(&items));
        let start = shortest_bytes(&start);
        let named = |fault| format!("seed {seed}, index {index}: {fault}");
        let accepted = accept(&program, &start, &record)
            .map_err(|refusal| named(format!("refused, {refusal:?}")))?;
        if program.len() > JUDGED_BYTES || former_groups(&accepted) == accepted.verdict.groups() {
            continue;
        }
        judge(&accepted).and(confirm(&accepted)).map_err(named)?;
        let cells = accepted.program.ranks * accepted.program.cells;
        let groups = accepted.grouping.groups.len();
        let name = format!("{FAMILY}-judged-{index}");
        let case = CheckCase::answered(name, program, start, record, groups, cells);
        cases.push(Case::Check(case));
    }
    Ok(cases)
}

/// The file of #111; a row that the second program answers otherwise is a fault, and so is an
/// order or ring that the searches do not confirm.
pub fn file(seed: u64) -> Result<Named, String> {
    let rows = rows();
    for row in &rows {
        if let Ok(accepted) = accept(&row.program, &row.start, &row.record) {
            confirm(&accepted).map_err(|fault| format!("{}: {fault}", row.name))?;
        }
    }
    let mut cases = cases_by_hand(rows)?;
    cases.extend(judged_cases(seed)?);
    let head = "# The shortest ring, #111 of document 02; answers worked out by hand, and after \
        them small runs\n# confirmed by the exhaustive judge and among all closed walks.\n";
    Ok(Named::new("shortest.txt", head, &cases))
}
