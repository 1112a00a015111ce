//! The verdict on each map byte and kind byte of an item, written from document 01 and document
//! 02's #107 and #108 alone. `record` has no part in it: this is a second text, and every reader is
//! held to it, that one too.

pub mod hold;
pub mod inputs;
pub mod table;

use std::fmt;

/// What the papers say of the map byte and the kind byte of an item.
#[derive(Debug, Clone, Copy, PartialEq, Eq, PartialOrd, Ord)]
pub enum Form {
    /// The kind is known, and the map is among its maps.
    Good,
    /// The kind is unknown, whatever the map: 6 at the kind byte.
    UnknownKind,
    /// The kind is known, but the map is not among its maps: 6 at the map byte.
    WrongMap,
}

/// The three verdicts.
pub const FORMS: [Form; 3] = [Form::Good, Form::UnknownKind, Form::WrongMap];

impl Form {
    /// The verdict's word in a table.
    pub fn word(self) -> &'static str {
        match self {
            Form::Good => "good",
            Form::UnknownKind => "unknown-kind",
            Form::WrongMap => "wrong-map",
        }
    }

    /// The verdict with this word, if there is one.
    pub fn from_word(word: &str) -> Option<Form> {
        FORMS.into_iter().find(|form| form.word() == word)
    }
}

/// The map byte and the kind byte of an item.
#[derive(Debug, Clone, Copy, PartialEq, Eq)]
pub struct Pair {
    /// The map byte.
    pub map: u8,
    /// The kind byte.
    pub kind: u8,
}

impl Pair {
    /// The verdict on the pair. Document 01: "Maps: load and store 27, or 59 with a value; assign,
    /// assume, read, write and bar 3; popa (kind 7) and popb (kind 8) 29, or 61 with a value."
    /// Document 02, #107: "In items a new map bit 7 brings the transition's high byte after all
    /// other fields. That byte is never 0 and bit 7 stands only with bit 1." #108: "A pop may carry
    /// map bit 6 and, as its last field, the remote rank (one byte)".
    pub fn form(self) -> Form {
        let maps: &[u8] = match self.kind {
            1 => &[27, 59, 155, 187], // load
            2 => &[27, 59, 155, 187], // store
            3 => &[3, 131],           // assign
            4 => &[3, 131],           // assume
            5 => &[3, 131],           // read
            6 => &[3, 131],           // write
            7 => &[29, 61, 93, 125],  // popa
            8 => &[29, 61, 93, 125],  // popb
            9 => &[3, 131],           // bar
            _ => return Form::UnknownKind,
        };
        if maps.contains(&self.map) {
            Form::Good
        } else {
            Form::WrongMap
        }
    }
}

impl fmt::Display for Pair {
    fn fmt(&self, out: &mut fmt::Formatter) -> fmt::Result {
        write!(out, "kind {} map {}", self.kind, self.map)
    }
}

/// All pairs, kinds rising and for each kind maps rising.
pub fn pairs() -> impl Iterator<Item = Pair> {
    (0..=255).flat_map(|kind| (0..=255).map(move |map| Pair { map, kind }))
}
