//! Reading bytes front to back, and writing them.

use crate::limits::{refuse, Outcome};
use std::ops::RangeInclusive;

/// Reads fields front to back; a missing byte gives the early-end number at the length.
pub struct ByteReader<'a> {
    /// The whole input.
    bytes: &'a [u8],
    /// The place of the next unread byte.
    at: usize,
    /// The number for an early end and for bytes left over: 1 or 4, 16 for a slip, and 19 for
    /// start bytes.
    length_number: u8,
}

impl<'a> ByteReader<'a> {
    /// Begins at byte 0 of the input.
    pub fn new(bytes: &'a [u8], length_number: u8) -> Self {
        ByteReader {
            bytes,
            at: 0,
            length_number,
        }
    }

    /// The place of the next unread byte.
    pub fn place(&self) -> usize {
        self.at
    }

    /// Reads one byte.
    pub fn byte(&mut self) -> Outcome<u8> {
        let Some(&byte) = self.bytes.get(self.at) else {
            return refuse(self.length_number, self.bytes.len());
        };
        self.at += 1;
        Ok(byte)
    }

    /// Reads a two-byte number, the high byte first.
    pub fn word(&mut self) -> Outcome<u16> {
        let high = self.byte()?;
        let low = self.byte()?;
        Ok(u16::from_be_bytes([high, low]))
    }

    /// Reads a one-byte field and judges it at once; a fault is placed at that byte.
    pub fn byte_within(&mut self, range: RangeInclusive<usize>, number: u8) -> Outcome<usize> {
        let place = self.place();
        let field = usize::from(self.byte()?);
        within(field, range, number, place)
    }

    /// Reads a two-byte field and judges it at once; a fault is placed at its first byte.
    pub fn word_within(&mut self, range: RangeInclusive<usize>, number: u8) -> Outcome<usize> {
        let place = self.place();
        let field = usize::from(self.word()?);
        within(field, range, number, place)
    }

    /// Refuses bytes left over, at the first of them.
    pub fn finish(self) -> Outcome<()> {
        if self.at < self.bytes.len() {
            return refuse(self.length_number, self.at);
        }
        Ok(())
    }
}

/// Gives the field back if it lies in the range, and else refuses it at its place.
pub fn within(
    field: usize,
    range: RangeInclusive<usize>,
    number: u8,
    place: usize,
) -> Outcome<usize> {
    if range.contains(&field) {
        Ok(field)
    } else {
        refuse(number, place)
    }
}

/// The numbers 0 to count − 1 as a range; empty when the count is 0.
pub fn below(count: usize) -> RangeInclusive<usize> {
    if count == 0 {
        RangeInclusive::new(1, 0)
    } else {
        0..=count - 1
    }
}

/// The 16-bit numbers of big-endian bytes, two an entry; an odd last byte is left out.
pub fn words_of(bytes: &[u8]) -> Vec<u16> {
    let word = |entry: &[u8]| u16::from_be_bytes([entry[0], entry[1]]);
    bytes.chunks_exact(2).map(word).collect()
}

/// Writes 16-bit numbers as big-endian bytes over the first entries of a lent list.
pub fn fill_words(list: &mut [u8], words: &[u16]) {
    for (entry, word) in list.chunks_exact_mut(2).zip(words) {
        entry.copy_from_slice(&word.to_be_bytes());
    }
}
