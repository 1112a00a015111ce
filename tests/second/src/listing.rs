//! The listing.

use crate::check::{accept, Accepted};
use crate::limits::{number, Refusal};
use crate::order::Verdict;
use std::fs;
use std::path::Path;

/// What the listing says of the run.
#[derive(Debug, Clone, Copy, PartialEq, Eq)]
pub enum Said {
    /// It lists an order.
    Order,
    /// It lists a ring.
    Ring,
    /// The run is refused, or the memory is too short; only 15 leaves the lent bytes untouched.
    Refused(Refusal),
}

/// What the listing returns: what it says of the run, and the bytes written.
#[derive(Debug, Clone, Copy, PartialEq, Eq)]
pub struct Listed {
    /// What it says.
    pub said: Said,
    /// How many of the lent bytes were filled.
    pub written: usize,
}

/// The lines of an accepted run.
pub fn lines_of(accepted: &Accepted) -> String {
    let word = match accepted.verdict {
        Verdict::Order(_) => "order",
        Verdict::Ring(_) => "ring",
    };
    let mut text = format!("{word} {}\n", accepted.verdict.groups().len());
    for &number in accepted.verdict.groups() {
        let group = &accepted.grouping.groups[number];
        let (word, rank, first) = (group.kind.word(), group.rank, group.items[0]);
        text.push_str(&format!("group {number} {word} {rank} {first}\n"));
    }
    for (index, rank) in accepted.run.last.ranks.iter().enumerate() {
        for (cell, &value) in rank.cells.iter().enumerate() {
            if value != 0 {
                text.push_str(&format!("cell {} {cell} {value}\n", index + 1));
            }
        }
    }
    text
}

/// The whole text of the listing, and what it says: an order, a ring, or a refusal with 1 to 13, 18
/// or 19.
pub fn listing_text(program: &[u8], start: &[u8], record: &[u8]) -> (String, Said) {
    match accept(program, start, record) {
        Ok(accepted) => {
            let said = match accepted.verdict {
                Verdict::Order(_) => Said::Order,
                Verdict::Ring(_) => Said::Ring,
            };
            (lines_of(&accepted), said)
        }
        Err(refusal) => (
            format!("refused {} {}\n", refusal.number, refusal.place),
            Said::Refused(refusal),
        ),
    }
}

/// Writes the listing into lent memory; memory too short for all lines is 15 and stays untouched.
pub fn write_listing(program: &[u8], start: &[u8], record: &[u8], memory: &mut [u8]) -> Listed {
    let (text, said) = listing_text(program, start, record);
    let Some(lent) = memory.get_mut(..text.len()) else {
        let short = Refusal {
            number: number::MEMORY_SHORT,
            place: text.len(),
        };
        return Listed {
            said: Said::Refused(short),
            written: 0,
        };
    };
    lent.copy_from_slice(text.as_bytes());
    Listed {
        said,
        written: text.len(),
    }
}

/// The listing program: the text for `run.prg`, `run.sta` and `run.rec` of a directory.
pub fn listing_of_directory(directory: &Path) -> String {
    let bytes = |name: &str| fs::read(directory.join(name)).unwrap_or_default();
    listing_text(&bytes("run.prg"), &bytes("run.sta"), &bytes("run.rec")).0
}
