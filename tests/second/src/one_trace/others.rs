//! Other records of the same trace that exchanging neighbours of different ranks does not reach.

use super::tried::{Tried, MOVED, PLAIN};
use super::Held;
use crate::generator::executions::give_values;
use crate::generator::loosen::loosen;
use crate::generator::neighbours::{name_all, thin};
use crate::generator::rng::Rng;
use crate::judge::written_out;
use crate::order::Verdict;
use crate::record::{record_bytes, Item};
use crate::replay::replay;

/// Another record of the trace, and the subject's own order written out, if it gives one.
pub fn hold(rng: &mut Rng, held: &Held, tried: &mut Tried) -> Result<(), String> {
    let other = held.beside_record(record_bytes(&moved(rng, held)))?;
    tried.count_other(MOVED, held, &other, &[]);
    if let Verdict::Order(order) = &held.accepted.verdict {
        let written = written_out(&held.accepted, order);
        let other = held.beside_record(record_bytes(&written))?;
        tried.count_other(PLAIN, held, &other, &[]);
    }
    Ok(())
}

/// The record's items with pops moved past rows and past items of their own rank, too. Names are
/// given to all pops for this and taken away again from some; values are given anew.
fn moved(rng: &mut Rng, held: &Held) -> Vec<Item> {
    let accepted = &held.accepted;
    let mut run = (
        accepted.program.clone(),
        accepted.start.clone(),
        accepted.items.clone(),
    );
    name_all(&mut run);
    loosen(rng, &run.0, &mut run.2);
    thin(rng, &mut run);
    let (program, start, mut items) = run;
    let run = replay(&program, &start, &items).expect("an item moved so is accepted");
    give_values(rng, &mut items, &run.steps);
    items
}
