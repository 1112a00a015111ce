//! Inputs that show the verdict on a pair: records that hold it, and for each verdict what is right
//! of check, slip writer and listing. All of it is written by hand; no reader has a part in it.

use super::{Form, Pair};
use crate::corpus::{CheckCase, Expected};
use crate::limits::{number, Refusal};

/// A transition for each kind of command, numbered from 0.
#[rustfmt::skip]
const COMMANDS: [u8; 63] = [
    6, 2, 0, 0,  0, 0, 1,  0, 1, 2,                      // 0: store, cell 1 takes 258
    3, 1, 0, 0,  1,  0, 0, 1,                            // 1: load, register 1 takes cell 1
    3, 3, 0, 0,  0,  2,                                  // 2: assign, register 0 takes own rank
    2, 4, 0, 0,  2,                                      // 3: assume, own rank
    30, 5, 0, 0,  0, 0, 2,  3,  0, 0, 1,  0, 0, 1,       // 4: read, 2, N, 1, queue 1
    30, 6, 0, 0,  0, 0, 1,  0, 0, 1,  0, 0, 0,  0, 0, 0, // 5: write, 1, rank 1, 0, queue 0
    0, 9, 0, 0,                                          // 6: bar
];
/// Header of the short program, which has the commands alone: N 2, A 3, R 2, Q 2, S 1, T 7.
const SHORT_HEADER: [u8; 6] = [2, 3, 2, 2, 1, 7];
/// Header of the long program, the same but for T, which is 264.
const LONG_HEADER: [u8; 8] = [2, 3, 2, 2, 1, 255, 1, 8];
/// Transition 7 of the long program: an assume, since bars come after it.
const ASSUME: [u8; 5] = [2, 4, 0, 0, 2];
/// Transitions 8 to 256 of the long program: bars.
const BAR: [u8; 4] = [0, 9, 0, 0];
/// How many they are.
const BARS: usize = 249;
/// The number of the first command in the long program, where all come once more. The low byte of
/// such a number alone is that of a transition of another kind.
const AGAIN: u16 = 257;

/// The bytes of the short program, or of the long one.
fn program(long: bool) -> Vec<u8> {
    if !long {
        return [&SHORT_HEADER[..], &COMMANDS].concat();
    }
    let bars = BAR.repeat(BARS);
    [&LONG_HEADER[..], &COMMANDS, &ASSUME, &bars, &COMMANDS].concat()
}

/// The map bit that each byte of an item's fields belongs to: rank, transition, queue, place rank,
/// place cell and value, these two of two bytes, a pop's remote rank, and the transition's high
/// byte.
const BITS: [u8; 10] = [0, 1, 2, 3, 4, 4, 5, 5, 6, 7];
/// The map bit of the transition's high byte.
const HIGH_BIT: u8 = 7;
/// The bytes of all fields but the high byte, with the transition's number in the short program.
type Fields = [u8; BITS.len() - 1];

/// An item of the run: its pair, and the bytes of all fields, of those that its map names and of
/// those that another map would name.
struct Planned {
    /// Map and kind.
    pair: Pair,
    /// The bytes of the fields, as `BITS` has them.
    fields: Fields,
}

impl Planned {
    /// The item's bytes with a pair in place of its own: map, kind, then the fields it names.
    fn with(&self, Pair { map, kind }: Pair) -> Vec<u8> {
        let mut bytes = vec![map, kind];
        let fields = self.all_fields(map).into_iter().zip(BITS);
        bytes.extend(fields.filter_map(|(byte, bit)| stands(map, bit).then_some(byte)));
        bytes
    }

    /// The bytes of all fields for an item with this map. Where it brings a high byte, the
    /// transition is the same command among those that the long program has once more.
    fn all_fields(&self, map: u8) -> [u8; BITS.len()] {
        let [rank, transition, rest @ ..] = self.fields;
        let first = if stands(map, HIGH_BIT) { AGAIN } else { 0 };
        let [high, low] = (first + u16::from(transition)).to_be_bytes();
        let [queue, place @ .., high_value, low_value, remote] = rest;
        let [owner, high_cell, low_cell] = place;
        [
            rank, low, queue, owner, high_cell, low_cell, high_value, low_value, remote, high,
        ]
    }
}

/// Whether a bit of the map stands.
fn stands(map: u8, bit: u8) -> bool {
    map & (1 << bit) != 0
}

/// An item by its map, its kind and its fields.
const fn planned(map: u8, kind: u8, fields: Fields) -> Planned {
    let pair = Pair { map, kind };
    Planned { pair, fields }
}

/// An accepted run with each kind of item, each of them at least once behind the first item.
#[rustfmt::skip]
const RUN: [Planned; 13] = [
    planned(3, 3, [1, 2, 0, 1, 0, 0, 0, 0, 1]),  // 0: assign of rank 1
    planned(27, 2, [2, 0, 0, 2, 0, 1, 1, 2, 1]), // 1: store of rank 2 at its cell 1
    planned(27, 1, [2, 1, 0, 2, 0, 1, 1, 2, 1]), // 2: load of rank 2 at its cell 1
    planned(3, 3, [2, 2, 0, 2, 0, 1, 1, 2, 1]),  // 3: assign of rank 2
    planned(3, 4, [2, 3, 0, 2, 0, 1, 1, 2, 1]),  // 4: assume of rank 2
    planned(3, 5, [1, 4, 1, 2, 0, 1, 1, 2, 2]),  // 5: read of rank 1 from rank 2
    planned(29, 7, [1, 4, 1, 2, 0, 1, 1, 2, 2]), // 6: popa of rank 1, queue 1, at cell 1 of rank 2
    planned(29, 8, [1, 4, 1, 1, 0, 2, 1, 2, 2]), // 7: popb of rank 1, queue 1, at its cell 2
    planned(3, 6, [2, 5, 0, 2, 0, 1, 1, 2, 1]),  // 8: write of rank 2 to rank 1
    planned(29, 7, [2, 5, 0, 2, 0, 1, 1, 2, 1]), // 9: popa of rank 2, queue 0, at its cell 1
    planned(29, 8, [2, 5, 0, 1, 0, 0, 1, 2, 1]), // 10: popb of rank 2, queue 0, at cell 0 of rank 1
    planned(3, 9, [1, 6, 0, 1, 0, 0, 0, 0, 1]),  // 11: bar of rank 1
    planned(3, 9, [2, 6, 0, 2, 0, 0, 0, 0, 1]),  // 12: bar of rank 2
];

/// The run's order: its groups as they are numbered.
const ORDER: [u16; 8] = [0, 1, 2, 3, 4, 5, 6, 7];
/// The last cells, three for each rank.
const CELLS: [u16; 6] = [258, 0, 258, 0, 258, 0];
/// The slip: rank 1 has 3 command items, rank 2 has 6.
const SLIP: [u8; 5] = [3, 0, 3, 0, 6];
/// The listing.
const LISTING: &str = "order 8
group 0 assign 1 0
group 1 store 2 1
group 2 load 2 2
group 3 assign 2 3
group 4 assume 2 4
group 5 read 1 5
group 6 write 2 8
group 7 bar 0 11
cell 1 0 258
cell 1 2 258
cell 2 1 258
";

/// Where in a record the pair stands, and beside which program.
#[derive(Debug, Clone, Copy, PartialEq, Eq)]
pub enum Stand {
    /// It is all that there is of the only item.
    Alone,
    /// It is all that there is of an item after the run.
    AfterRun,
    /// It is in place of the run's last pair of that kind, with the fields that the map names; for
    /// a kind that the run does not have, in place of the last pair.
    InRun,
    /// The same with the long program, which has the transitions that a high byte names.
    InLongRun,
}

/// The four stands, the simplest first.
pub const STANDS: [Stand; 4] = [
    Stand::Alone,
    Stand::AfterRun,
    Stand::InRun,
    Stand::InLongRun,
];

/// A record that holds a pair.
struct Holding {
    /// The record's bytes.
    record: Vec<u8>,
    /// The place of the pair's map byte.
    map_place: usize,
    /// The place of the last byte of the pair's item.
    last_place: usize,
}

impl Stand {
    /// The record with the pair.
    fn record(self, pair: Pair) -> Holding {
        let cut = [pair.map, pair.kind];
        match self {
            Stand::Alone => around(&[], &cut, &[]),
            Stand::AfterRun => around(&RUN, &cut, &[]),
            Stand::InRun | Stand::InLongRun => {
                let of_kind = RUN.iter().rposition(|item| item.pair.kind == pair.kind);
                let at = of_kind.unwrap_or(RUN.len() - 1);
                around(&RUN[..at], &RUN[at].with(pair), &RUN[at + 1..])
            }
        }
    }
}

/// A record of planned items and one between them given as bytes.
fn around(before: &[Planned], item: &[u8], after: &[Planned]) -> Holding {
    let count = before.len() + 1 + after.len();
    let mut record = (count as u16).to_be_bytes().to_vec();
    let write = |record: &mut Vec<u8>, items: &[Planned]| {
        for item in items {
            record.extend(item.with(item.pair));
        }
    };
    write(&mut record, before);
    let map_place = record.len();
    record.extend(item);
    let last_place = record.len() - 1;
    write(&mut record, after);
    Holding {
        record,
        map_place,
        last_place,
    }
}

/// The input with the pair at this stand, and what is right if this is the verdict: 6 at the kind
/// or at the map; of a good pair that is cut off, 4 at the length, since every good map names a
/// rank; of a good pair in the run, the run's order, but 5 at the high byte, if there is one,
/// where the program has no transition of so high a number.
pub fn case(stand: Stand, pair: Pair, form: Form) -> CheckCase {
    let held = stand.record(pair);
    let (number, place) = match (form, stand) {
        (Form::UnknownKind, _) => (number::RECORD_FORM, held.map_place + 1),
        (Form::WrongMap, _) => (number::RECORD_FORM, held.map_place),
        (Form::Good, Stand::Alone | Stand::AfterRun) => (number::RECORD_LENGTH, held.record.len()),
        (Form::Good, Stand::InRun) if stands(pair.map, HIGH_BIT) => {
            (number::RECORD_RANGE, held.last_place)
        }
        (Form::Good, _) => return accepted(stand, held.record),
    };
    refused(stand, held.record, Refusal { number, place })
}

/// The case of a record with the run's answers; both lists are longer than it needs.
fn accepted(stand: Stand, record: Vec<u8>) -> CheckCase {
    CheckCase {
        name: String::new(),
        program: program(stand == Stand::InLongRun),
        start: Vec::new(),
        record,
        order_entries: ORDER.len() + 2,
        cell_entries: CELLS.len() + 2,
        answer: Expected::Order(ORDER.to_vec()),
        cells: CELLS.to_vec(),
        slip: Some(SLIP.to_vec()),
        listing: LISTING.into(),
    }
}

/// The case of a record that gets this refusal.
fn refused(stand: Stand, record: Vec<u8>, refusal: Refusal) -> CheckCase {
    let Refusal { number, place } = refusal;
    CheckCase {
        answer: Expected::Refused(refusal),
        cells: Vec::new(),
        slip: None,
        listing: format!("refused {number} {place}\n"),
        ..accepted(stand, record)
    }
}
