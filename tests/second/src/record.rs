//! The record bytes: the item count and the items.

use crate::bytes::{below, within, ByteReader};
use crate::limits::{number, refuse, Outcome, MAX_ITEMS};
use crate::program::{Kind, Program};

/// A cell of a rank.
#[derive(Debug, Clone, Copy, PartialEq, Eq, PartialOrd, Ord)]
pub struct Cell {
    /// The rank that has the cell, from 1.
    pub rank: usize,
    /// The cell's number, from 0.
    pub cell: usize,
}

/// What an item does, without the place and value it claims.
#[derive(Debug, Clone, Copy, PartialEq, Eq)]
pub enum Act {
    /// A command item: the rank takes the transition, said to be of this kind.
    Command {
        /// The item's kind.
        kind: Kind,
        /// The rank.
        rank: usize,
        /// The transition.
        transition: usize,
    },
    /// A fetch for a request.
    PopA(Pop),
    /// The writing of a delivery.
    PopB(Pop),
}

/// Where a pop takes its request or delivery from.
#[derive(Debug, Clone, Copy, PartialEq, Eq)]
pub struct Pop {
    /// The rank.
    pub rank: usize,
    /// The rank's queue.
    pub queue: usize,
    /// The remote rank whose oldest entry is taken; if none is named, the oldest of all.
    pub remote: Option<usize>,
}

impl Pop {
    /// A pop of the oldest of all entries.
    pub fn of_all(rank: usize, queue: usize) -> Pop {
        Pop {
            rank,
            queue,
            remote: None,
        }
    }
}

/// One item of a record.
#[derive(Debug, Clone, Copy, PartialEq, Eq)]
pub struct Item {
    /// What is done.
    pub act: Act,
    /// The place the item names; every load, store and pop has one.
    pub place: Option<Cell>,
    /// The value the item gives, if any.
    pub value: Option<u16>,
}

/// Map bit 1: the transition, or its low byte where bit 7 stands too.
const TRANSITION_BIT: u8 = 1 << 1;
/// Map bit 2: the queue.
const QUEUE_BIT: u8 = 1 << 2;
/// Map bit 3: the place's rank; bit 4, its cell, stands with it in every right map.
const PLACE_BIT: u8 = 1 << 3;
/// Map bit 5: the value.
const VALUE_BIT: u8 = 1 << 5;
/// Map bit 6: the remote rank, the last field of a pop; it stands only with pops.
pub const REMOTE_BIT: u8 = 1 << 6;
/// Map bit 7: the transition's high byte, after all other fields; it stands only with bit 1.
pub const HIGH_BIT: u8 = 1 << 7;

impl Act {
    /// The kind of the item.
    pub fn kind(&self) -> Kind {
        match self {
            Act::Command { kind, .. } => *kind,
            Act::PopA(_) => Kind::PopA,
            Act::PopB(_) => Kind::PopB,
        }
    }

    /// The rank of the item.
    pub fn rank(&self) -> usize {
        match self {
            Act::Command { rank, .. } => *rank,
            Act::PopA(pop) | Act::PopB(pop) => pop.rank,
        }
    }

    /// Gives the item another rank.
    pub fn set_rank(&mut self, other: usize) {
        match self {
            Act::Command { rank, .. } => *rank = other,
            Act::PopA(pop) | Act::PopB(pop) => pop.rank = other,
        }
    }

    /// Where a pop takes its entry from.
    pub fn pop(&self) -> Option<&Pop> {
        match self {
            Act::Command { .. } => None,
            Act::PopA(pop) | Act::PopB(pop) => Some(pop),
        }
    }

    /// Where a pop takes its entry from, to be changed.
    pub fn pop_mut(&mut self) -> Option<&mut Pop> {
        match self {
            Act::Command { .. } => None,
            Act::PopA(pop) | Act::PopB(pop) => Some(pop),
        }
    }

    /// The act without the remote rank that a pop may name.
    pub fn unnamed(mut self) -> Act {
        if let Some(pop) = self.pop_mut() {
            pop.remote = None;
        }
        self
    }

    /// The transition of a command item.
    pub fn transition(&self) -> Option<usize> {
        match self {
            Act::Command { transition, .. } => Some(*transition),
            _ => None,
        }
    }

    /// The high byte of a transition's number, if it is not 0; only then is it written.
    fn high_byte(&self) -> Option<u8> {
        let high = self.transition()? / 256;
        (high != 0).then_some(high as u8)
    }
}

impl Item {
    /// Appends the item's bytes.
    pub fn write(&self, out: &mut Vec<u8>) {
        let [plain, valued] = maps(self.act.kind());
        let map = if self.value.is_some() { valued } else { plain };
        let high = self.act.high_byte();
        let high_bit = if high.is_some() { HIGH_BIT } else { 0 };
        let remote = self.act.pop().and_then(|pop| pop.remote);
        let remote_bit = if remote.is_some() { REMOTE_BIT } else { 0 };
        out.extend([
            map | remote_bit | high_bit,
            self.act.kind().byte(),
            self.act.rank() as u8,
        ]);
        match self.act {
            Act::Command { transition, .. } => out.push(low_byte(transition)),
            Act::PopA(pop) | Act::PopB(pop) => out.push(pop.queue as u8),
        }
        if let Some(place) = self.place {
            out.push(place.rank as u8);
            out.extend((place.cell as u16).to_be_bytes());
        }
        out.extend(self.value.iter().flat_map(|value| value.to_be_bytes()));
        out.extend(remote.map(|remote| remote as u8));
        out.extend(high);
    }
}

/// The low byte of a transition's number.
fn low_byte(transition: usize) -> u8 {
    (transition % 256) as u8
}

/// Whether the map is among the kind's: one of the two below, with bit 6 or not if it is a pop's,
/// and with bit 7 or not where bit 1 stands. The table in `forms` says the same in a text of its
/// own and is not made from this one.
fn is_map_of(kind: Kind, map: u8) -> bool {
    let others = map & !(REMOTE_BIT | HIGH_BIT);
    let remote_fits = map & REMOTE_BIT == 0 || kind.is_pop();
    let high_fits = map & HIGH_BIT == 0 || map & TRANSITION_BIT != 0;
    maps(kind).contains(&others) && remote_fits && high_fits
}

/// The two maps of a kind with bits 6 and 7 left out: without a value and with one; the same where
/// no value can be given.
pub fn maps(kind: Kind) -> [u8; 2] {
    match kind {
        Kind::Load | Kind::Store => [27, 59],
        Kind::Assign | Kind::Assume | Kind::Read | Kind::Write | Kind::Bar => [3, 3],
        Kind::PopA | Kind::PopB => [29, 61],
    }
}

/// Where the items of a record begin, the fields passed over by the bits of each map.
pub fn items_of(record: &[u8]) -> Vec<usize> {
    let mut places = Vec::new();
    let mut at = 2;
    while at + 1 < record.len() {
        places.push(at);
        at += 2 + fields(record[at]);
    }
    places
}

/// The bytes of the fields that a map names.
pub fn fields(map: u8) -> usize {
    let bytes = [1, 1, 1, 1, 2, 2, 1, 1].into_iter().enumerate();
    let named = bytes.filter(|(bit, _)| map & (1 << bit) != 0);
    named.map(|(_, bytes)| bytes).sum()
}

/// Reads the record bytes whole, front to back, against a readable program.
pub fn read_record(bytes: &[u8], program: &Program) -> Outcome<Vec<Item>> {
    let mut reader = ByteReader::new(bytes, number::RECORD_LENGTH);
    let count = reader.word_within(0..=MAX_ITEMS, number::RECORD_RANGE)?;
    let mut items = Vec::new();
    for _ in 0..count {
        items.push(read_item(&mut reader, program)?);
    }
    reader.finish()?;
    Ok(items)
}

/// The bytes of a record with these items.
pub fn record_bytes(items: &[Item]) -> Vec<u8> {
    let mut out = (items.len() as u16).to_be_bytes().to_vec();
    for item in items {
        item.write(&mut out);
    }
    out
}

/// Reads one item: map and kind, both before either is judged, then its fields in bit order.
fn read_item(reader: &mut ByteReader, program: &Program) -> Outcome<Item> {
    let map_place = reader.place();
    let map = reader.byte()?;
    let kind_place = reader.place();
    let Some(kind) = Kind::from_byte(reader.byte()?) else {
        return refuse(number::RECORD_FORM, kind_place);
    };
    if !is_map_of(kind, map) {
        return refuse(number::RECORD_FORM, map_place);
    }
    let rank = reader.byte_within(1..=program.ranks, number::RECORD_RANGE)?;
    let mut act = read_act(reader, program, kind, map, rank)?;
    let mut place = None;
    if map & PLACE_BIT != 0 {
        let owner = reader.byte_within(1..=program.ranks, number::RECORD_RANGE)?;
        let cell = reader.word_within(below(program.cells), number::RECORD_RANGE)?;
        place = Some(Cell { rank: owner, cell });
    }
    let mut value = None;
    if map & VALUE_BIT != 0 {
        value = Some(reader.word()?);
    }
    if let (true, Some(pop)) = (map & REMOTE_BIT != 0, act.pop_mut()) {
        pop.remote = Some(reader.byte_within(1..=program.ranks, number::RECORD_RANGE)?);
    }
    if let (true, Act::Command { transition, .. }) = (map & HIGH_BIT != 0, &mut act) {
        *transition = read_high_byte(reader, program, *transition)?;
    }
    Ok(Item { act, place, value })
}

/// Reads the high byte of a transition's number, which is not 0 and makes it a transition's, and
/// gives the number.
fn read_high_byte(reader: &mut ByteReader, program: &Program, low: usize) -> Outcome<usize> {
    let place = reader.place();
    let high = reader.byte_within(1..=255, number::RECORD_RANGE)?;
    let transitions = below(program.transitions.len());
    within(256 * high + low, transitions, number::RECORD_RANGE, place)
}

/// Reads the transition of a command item or the queue of a pop, whose remote rank, if it names
/// one, comes later. With bit 7 it is the transition's low byte, which is not judged alone.
fn read_act(
    reader: &mut ByteReader,
    program: &Program,
    kind: Kind,
    map: u8,
    rank: usize,
) -> Outcome<Act> {
    if map & QUEUE_BIT == 0 {
        let transitions = if map & HIGH_BIT == 0 {
            below(program.transitions.len())
        } else {
            0..=255
        };
        let transition = reader.byte_within(transitions, number::RECORD_RANGE)?;
        return Ok(Act::Command {
            kind,
            rank,
            transition,
        });
    }
    let queue = reader.byte_within(below(program.queues), number::RECORD_RANGE)?;
    let pop = Pop::of_all(rank, queue);
    if kind == Kind::PopA {
        Ok(Act::PopA(pop))
    } else {
        Ok(Act::PopB(pop))
    }
}
