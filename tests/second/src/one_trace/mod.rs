//! #112 of document 02, held to a subject: one trace, one page. No right answer is needed for it:
//! what the subject says of a record is laid beside what it says of another record of the same
//! trace, or of the same record from a start that differs only in cells never accessed.

pub mod exchange;
pub mod others;
pub mod starts;
pub mod tried;

use crate::check::Accepted;
use crate::corpus::to_hex;
use crate::extras::{Seen, Told, DONE};
use crate::forms::hold::Readers;
use crate::generator::rng::Rng;
use crate::generator::{accepted_input, Input};
use crate::harness::Observed;
use crate::judge::same_trace;
use crate::judged::{accepted_with, judge_numbers, verdict_of};
use crate::machine::CommandId;
use crate::order::{from_its_lowest, Verdict};
use std::collections::BTreeMap;
use std::fmt;
use tried::Tried;

/// Bytes lent to the slip writer, enough for every slip.
const SLIP_BYTES: usize = 34;

/// An input of which the second program says that it is accepted, and what a subject says of it.
pub struct Held<'a> {
    /// The subject.
    pub subject: &'a Readers<'a>,
    /// The input.
    pub input: Input,
    /// What its check does.
    pub observed: Observed,
    /// What its slip writer does.
    pub slip: Seen<u8>,
    /// The run, with the subject's order or ring.
    pub accepted: Accepted,
}

impl<'a> Held<'a> {
    /// Has a subject answer on an input, which is accepted; it must accept it as well.
    pub fn of(subject: &'a Readers<'a>, input: Input) -> Result<Held<'a>, String> {
        let observed = (subject.check)(&input);
        let Input {
            program,
            start,
            record,
            ..
        } = &input;
        let slip = (subject.extras.write_slip)(program, start, record, SLIP_BYTES);
        let accepted = accepted_by(&input, &observed, &slip)
            .map_err(|fault| format!("{fault}\n{}", shown(&input, &observed, &slip)))?;
        Ok(Held {
            subject,
            input,
            observed,
            slip,
            accepted,
        })
    }

    /// Has the subject answer on another input and lays both answers side by side.
    pub fn beside(&self, input: Input, agree: Agreement) -> Result<Held<'a>, String> {
        let agreeing = |other: Held<'a>| {
            let agreed = same_runs(&self.accepted, &other.accepted);
            let agreed = agreed.and_then(|()| agree(self, &other));
            match agreed {
                Ok(()) => Ok(other),
                Err(fault) => Err(format!("{fault}\n{other}")),
            }
        };
        let other = Held::of(self.subject, input).and_then(agreeing);
        other.map_err(|fault| format!("{fault}\nbeside\n{self}"))
    }

    /// Holds the subject to one page for one trace, with another record of it.
    pub fn beside_record(&self, record: Vec<u8>) -> Result<Held<'a>, String> {
        let input = Input {
            record,
            ..self.input.clone()
        };
        self.beside(input, one_page)
    }
}

/// What must hold of a subject's answers on two inputs.
pub type Agreement = fn(&Held, &Held) -> Result<(), String>;

impl fmt::Display for Held<'_> {
    fn fmt(&self, out: &mut fmt::Formatter) -> fmt::Result {
        out.write_str(&shown(&self.input, &self.observed, &self.slip))
    }
}

/// An input and what a subject says of it, to be printed.
fn shown(input: &Input, observed: &Observed, slip: &Seen<u8>) -> String {
    let Told { number, value } = slip.told;
    let memory = to_hex(&slip.memory);
    format!("{input}\nsubject: {observed:?}\n  slip {number}, value {value}, in guards {memory}")
}

/// The run of an input with the subject's order or ring, if that lists groups of the run and the
/// slip is written.
fn accepted_by(input: &Input, observed: &Observed, slip: &Seen<u8>) -> Result<Accepted, String> {
    let accepted = accepted_with(input, verdict_of(observed)?)
        .map_err(|refusal| format!("the second program refuses the record: {refusal:?}"))?;
    judge_numbers(&accepted.verdict, accepted.grouping.groups.len())?;
    if slip.told.number == DONE {
        Ok(accepted)
    } else {
        Err("no slip, but the check accepts the record".into())
    }
}

/// Fails unless two runs have the same trace, by document 01's words, and the same last registers;
/// the subject has no part in this.
fn same_runs(one: &Accepted, other: &Accepted) -> Result<(), String> {
    let registers = |accepted: &Accepted| -> Vec<Vec<u16>> {
        let ranks = accepted.run.last.ranks.iter();
        ranks.map(|rank| rank.registers.clone()).collect()
    };
    if !same_trace(&one.run, &other.run) {
        return Err("the second program's traces differ".into());
    }
    if registers(one) != registers(other) {
        return Err("the second program's last registers differ".into());
    }
    Ok(())
}

/// One trace, one page: the same kind of answer with the same count, the same cells and the same
/// slip. The groups and arrows are the same but for their numbers, and of all orders and shortest
/// rings the first by number is listed; so neither may be behind the other's with its numbers.
pub fn one_page(one: &Held, other: &Held) -> Result<(), String> {
    if one.observed.answer != other.observed.answer {
        return Err("another kind of answer or another count for the same trace".into());
    }
    if one.observed.cells != other.observed.cells {
        return Err("other last cells for the same trace".into());
    }
    if one.slip != other.slip {
        return Err("another slip for the same trace".into());
    }
    let first = |one: &Accepted, other: &Accepted| one.verdict.groups() <= &renumbered(other, one);
    if first(&one.accepted, &other.accepted) && first(&other.accepted, &one.accepted) {
        Ok(())
    } else {
        Err("with the other's numbers its groups come first for the same trace".into())
    }
}

/// The groups that a run lists with the numbers that they have in another of the same trace, a ring
/// again from its lowest.
fn renumbered(accepted: &Accepted, other: &Accepted) -> Vec<usize> {
    let numbers: BTreeMap<CommandId, usize> = commands(other).into_iter().zip(0..).collect();
    let commands = commands(accepted);
    let number = |&group: &usize| numbers.get(&commands[group]).copied();
    let listed = accepted.verdict.groups().iter();
    let groups: Vec<usize> = listed.filter_map(number).collect();
    match accepted.verdict {
        Verdict::Order(_) => groups,
        Verdict::Ring(_) => from_its_lowest(&groups),
    }
}

/// The first command of each group, which it is known by in all records of a trace.
fn commands(accepted: &Accepted) -> Vec<CommandId> {
    let groups = accepted.grouping.groups.iter();
    groups
        .map(|group| accepted.run.steps[group.items[0]].command)
        .collect()
}

/// One of these places, of which there is at least one; every other time one for which this holds,
/// if it holds for any.
fn pick_often(rng: &mut Rng, places: &[usize], holds: impl Fn(usize) -> bool) -> usize {
    let often: Vec<usize> = places.iter().copied().filter(|&at| holds(at)).collect();
    if often.is_empty() || rng.chance(1, 2) {
        *rng.pick(places)
    } else {
        *rng.pick(&often)
    }
}

/// Holds a subject to #112 with the accepted record of this number under this seed, and counts what
/// was tried.
pub fn hold(subject: &Readers, seed: u64, index: u64, tried: &mut Tried) -> Result<(), String> {
    let held = Held::of(subject, accepted_input(seed, index))?;
    let rng = &mut Rng::new(!seed ^ 3, index);
    tried.count_record(&held.accepted);
    exchange::hold(rng, &held, tried)?;
    others::hold(rng, &held, tried)?;
    starts::hold(rng, &held, tried)
}
