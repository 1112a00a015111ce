//! Neighbouring items exchanged, in the record's bytes.

use super::tried::{Tried, IN_TURN, RECORD};
use super::{pick_often, Held};
use crate::generator::loosen::same_cell_conflict;
use crate::generator::rng::Rng;
use crate::program::Kind;
use crate::record::{items_of, Item};

/// What two neighbouring items are: by #112 they may not be exchanged, or they may.
#[derive(Debug, Clone, Copy, PartialEq, Eq, PartialOrd, Ord)]
pub enum Pair {
    /// One of them is a bar.
    Bar,
    /// They are of one rank.
    OneRank,
    /// They access one cell, and one of them writes.
    Conflict,
    /// Two commands.
    Commands,
    /// A command and a pop.
    CommandAndPop,
    /// Two pops.
    Pops,
}

/// The pairs that may not be exchanged.
pub const KEPT: [Pair; 3] = [Pair::Bar, Pair::OneRank, Pair::Conflict];
/// The pairs that may be exchanged.
pub const EXCHANGEABLE: [Pair; 3] = [Pair::Commands, Pair::CommandAndPop, Pair::Pops];

impl Pair {
    /// What these two items are.
    pub fn of(one: &Item, other: &Item) -> Pair {
        let kinds = [one, other].map(|item| item.act.kind());
        let pops = kinds.iter().filter(|kind| kind.is_pop()).count();
        match pops {
            _ if kinds.contains(&Kind::Bar) => Pair::Bar,
            _ if one.act.rank() == other.act.rank() => Pair::OneRank,
            _ if same_cell_conflict(one, other) => Pair::Conflict,
            0 => Pair::Commands,
            1 => Pair::CommandAndPop,
            _ => Pair::Pops,
        }
    }

    /// How it is called in what is printed.
    pub fn words(self) -> &'static str {
        match self {
            Pair::Bar => "neighbours: a bar",
            Pair::OneRank => "neighbours: one rank",
            Pair::Conflict => "neighbours: a conflict",
            Pair::Commands => "commands",
            Pair::CommandAndPop => "mixed",
            Pair::Pops => "pops",
        }
    }

    /// Whether #112 lets them be exchanged.
    pub fn is_exchangeable(self) -> bool {
        EXCHANGEABLE.contains(&self)
    }
}

/// A record whose items are exchanged.
#[derive(Debug, Clone)]
pub struct Record {
    /// Its bytes.
    pub bytes: Vec<u8>,
    /// Its items.
    pub items: Vec<Item>,
    /// Where each item begins in the bytes, and the end of the last.
    places: Vec<usize>,
}

impl Record {
    /// The record of an accepted input.
    pub fn of(held: &Held) -> Record {
        let bytes = held.input.record.clone();
        let mut places = items_of(&bytes);
        places.push(bytes.len());
        Record {
            bytes,
            items: held.accepted.items.clone(),
            places,
        }
    }

    /// What the item at this place and the next one are.
    pub fn pair(&self, at: usize) -> Pair {
        Pair::of(&self.items[at], &self.items[at + 1])
    }

    /// Whether the item at this place and the next one access one cell.
    fn at_one_cell(&self, at: usize) -> bool {
        let [one, other] = [at, at + 1].map(|item| self.items[item].place);
        one.is_some() && one == other
    }

    /// The places of all pairs of neighbours for which this holds.
    pub fn pairs(&self, holds: impl Fn(Pair) -> bool) -> Vec<usize> {
        let last = self.items.len().saturating_sub(1);
        (0..last).filter(|&at| holds(self.pair(at))).collect()
    }

    /// Exchanges the bytes of the item at this place and of the next one.
    pub fn exchange(&mut self, at: usize) {
        let [begin, middle, end] = [at, at + 1, at + 2].map(|item| self.places[item]);
        self.bytes[begin..end].rotate_left(middle - begin);
        self.places[at + 1] = begin + (end - middle);
        self.items.swap(at, at + 1);
    }
}

/// Exchanges one pair of each kind that the record has, and then many pairs one after the other.
pub fn hold(rng: &mut Rng, held: &Held, tried: &mut Tried) -> Result<(), String> {
    let record = Record::of(held);
    for kept in KEPT {
        let pairs = record.pairs(|pair| pair == kept);
        tried.add(RECORD, kept.words(), pairs.len());
    }
    for kind in EXCHANGEABLE {
        let pairs = record.pairs(|pair| pair == kind);
        if !pairs.is_empty() {
            let at = pick_often(rng, &pairs, |at| record.at_one_cell(at));
            let mut record = record.clone();
            record.exchange(at);
            let other = held.beside_record(record.bytes.clone())?;
            tried.count_exchange(held, &other, &record.items, at);
        }
    }
    hold_many(rng, held, record, tried)
}

/// Exchanges pairs at random places, one after the other, each with what the ones before have left.
fn hold_many(
    rng: &mut Rng,
    held: &Held,
    mut record: Record,
    tried: &mut Tried,
) -> Result<(), String> {
    let pairs = record.items.len().saturating_sub(1);
    let mut exchanged = 0;
    for _ in 0..pairs * *rng.pick(&[1, 4, 16]) {
        let at = rng.below(pairs);
        if record.pair(at).is_exchangeable() {
            record.exchange(at);
            exchanged += 1;
        }
    }
    if exchanged > 1 {
        let other = held.beside_record(record.bytes)?;
        tried.add(IN_TURN, "exchanges", exchanged);
        tried.count_other(IN_TURN, held, &other, &[]);
    }
    Ok(())
}
