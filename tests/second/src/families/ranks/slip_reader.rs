//! The slip reader with maps of one byte and of two: every clause at and beyond each limit, and
//! slips read with another N than they were written for.

use super::FAMILY;
use crate::corpus::Case;
use crate::families::slips::{by_hand, Row};

/// Slips that are read.
#[rustfmt::skip]
const READ: [Row; 22] = [
    ("none-of-9", 9, &[0, 0], 9, Ok(&[0; 9])),
    ("none-of-15", 15, &[0, 0], 15, Ok(&[0; 15])),
    ("none-of-16", 16, &[0, 0], 16, Ok(&[0; 16])),
    ("first-of-9", 9, &[0, 1, 0, 5], 9, Ok(&[5, 0, 0, 0, 0, 0, 0, 0, 0])),
    ("eighth-of-8", 8, &[128, 0, 5], 8, Ok(&[0, 0, 0, 0, 0, 0, 0, 5])),
    ("eighth-of-9", 9, &[0, 128, 0, 5], 9, Ok(&[0, 0, 0, 0, 0, 0, 0, 5, 0])),
    ("ninth-of-9", 9, &[1, 0, 0, 5], 9, Ok(&[0, 0, 0, 0, 0, 0, 0, 0, 5])),
    ("eighth-and-ninth-of-9", 9, &[1, 128, 0, 8, 0, 9], 9, Ok(&[0, 0, 0, 0, 0, 0, 0, 8, 9])),
    ("first-and-ninth-of-9", 9, &[1, 1, 0, 1, 4, 0], 9, Ok(&[1, 0, 0, 0, 0, 0, 0, 0, 1024])),
    ("tenth-of-10", 10, &[2, 0, 1, 2], 10, Ok(&[0, 0, 0, 0, 0, 0, 0, 0, 0, 258])),
    ("fifteenth-of-15", 15, &[64, 0, 1, 0], 15,
        Ok(&[0, 0, 0, 0, 0, 0, 0, 0, 0, 0, 0, 0, 0, 0, 256])),
    ("first-of-16", 16, &[0, 1, 0, 5], 16, Ok(&[5, 0, 0, 0, 0, 0, 0, 0, 0, 0, 0, 0, 0, 0, 0, 0])),
    ("eighth-of-16", 16, &[0, 128, 0, 5], 16,
        Ok(&[0, 0, 0, 0, 0, 0, 0, 5, 0, 0, 0, 0, 0, 0, 0, 0])),
    ("ninth-of-16", 16, &[1, 0, 0, 5], 16, Ok(&[0, 0, 0, 0, 0, 0, 0, 0, 5, 0, 0, 0, 0, 0, 0, 0])),
    ("sixteenth-of-16", 16, &[128, 0, 4, 0], 16,
        Ok(&[0, 0, 0, 0, 0, 0, 0, 0, 0, 0, 0, 0, 0, 0, 0, 1024])),
    ("every-other-of-16", 16,
        &[170, 170, 0, 2, 0, 4, 0, 6, 0, 8, 0, 10, 0, 12, 0, 14, 0, 16], 16,
        Ok(&[0, 2, 0, 4, 0, 6, 0, 8, 0, 10, 0, 12, 0, 14, 0, 16])),
    ("all-of-8", 8, &[255, 0, 1, 0, 2, 0, 3, 0, 4, 0, 5, 0, 6, 0, 7, 0, 8], 8,
        Ok(&[1, 2, 3, 4, 5, 6, 7, 8])),
    ("all-of-9", 9, &[1, 255, 0, 1, 0, 2, 0, 3, 0, 4, 0, 5, 0, 6, 0, 7, 0, 8, 0, 9], 9,
        Ok(&[1, 2, 3, 4, 5, 6, 7, 8, 9])),
    ("all-of-15", 15,
        &[127, 255, 0, 1, 0, 2, 0, 3, 0, 4, 0, 5, 0, 6, 0, 7, 0, 8, 0, 9, 0, 10, 0, 11, 0, 12,
            0, 13, 0, 14, 0, 15], 15,
        Ok(&[1, 2, 3, 4, 5, 6, 7, 8, 9, 10, 11, 12, 13, 14, 15])),
    ("all-of-16", 16,
        &[255, 255, 0, 1, 0, 2, 0, 3, 0, 4, 0, 5, 0, 6, 0, 7, 0, 8, 0, 9, 0, 10, 0, 11, 0, 12,
            0, 13, 0, 14, 0, 15, 0, 16], 16,
        Ok(&[1, 2, 3, 4, 5, 6, 7, 8, 9, 10, 11, 12, 13, 14, 15, 16])),
    ("entries-beyond-9", 9, &[1, 0, 0, 5], 12, Ok(&[0, 0, 0, 0, 0, 0, 0, 0, 5])),
    ("entries-beyond-16", 16, &[128, 1, 4, 0, 0, 9], 17,
        Ok(&[1024, 0, 0, 0, 0, 0, 0, 0, 0, 0, 0, 0, 0, 0, 0, 9])),
];

/// Slips and numbers of ranks that are refused, and lists that are too short.
#[rustfmt::skip]
const REFUSED: [Row; 48] = [
    ("n-0", 0, &[0, 0], 16, Err((16, 0))),
    ("n-17", 17, &[0, 0], 17, Err((16, 0))),
    ("n-17-one-byte", 17, &[0], 17, Err((16, 0))),
    ("n-17-three-bytes", 17, &[0, 0, 0], 17, Err((16, 0))),
    ("n-17-and-empty", 17, &[], 17, Err((16, 0))),
    ("n-17-before-short-list", 17, &[0, 0], 0, Err((16, 0))),
    ("n-17-whole", 17, &[128, 1, 0, 1, 0, 1], 17, Err((16, 0))),
    ("n-24", 24, &[0, 0, 0], 24, Err((16, 0))),
    ("n-32", 32, &[0, 0], 32, Err((16, 0))),
    ("n-255", 255, &[0, 0], 255, Err((16, 0))),
    ("n-265", 265, &[0, 0], 265, Err((16, 0))),
    ("empty-of-9", 9, &[], 9, Err((16, 0))),
    ("empty-of-16", 16, &[], 16, Err((16, 0))),
    ("half-a-map-of-15", 15, &[0], 15, Err((16, 1))),
    ("half-a-map-of-16", 16, &[255], 16, Err((16, 1))),
    ("half-a-map-with-bits-above-9", 9, &[255], 9, Err((16, 1))),
    ("half-a-map-before-short-list", 9, &[0], 0, Err((16, 1))),
    ("bit-above-9", 9, &[2, 0, 0, 1], 9, Err((16, 0))),
    ("last-bit-above-9", 9, &[128, 0, 0, 1], 9, Err((16, 0))),
    ("bit-above-9-among-others", 9, &[3, 255], 9, Err((16, 0))),
    ("bit-above-10", 10, &[4, 0, 0, 1], 10, Err((16, 0))),
    ("bit-above-15", 15, &[128, 0, 0, 1], 15, Err((16, 0))),
    ("all-bits-above-9", 9, &[255, 255], 9, Err((16, 0))),
    ("bit-above-before-short-list", 9, &[2, 0], 0, Err((16, 0))),
    ("count-0-of-9", 9, &[1, 0, 0, 0], 9, Err((16, 2))),
    ("count-1025-of-9", 9, &[1, 0, 4, 1], 9, Err((16, 2))),
    ("count-1025-of-16", 16, &[128, 0, 4, 1], 16, Err((16, 2))),
    ("count-65535-of-16", 16, &[0, 1, 255, 255], 16, Err((16, 2))),
    ("second-count-0-of-16", 16, &[1, 128, 0, 1, 0, 0], 16, Err((16, 4))),
    ("third-count-1025-of-15", 15, &[64, 129, 0, 1, 0, 2, 4, 1], 15, Err((16, 6))),
    ("last-count-0-of-16", 16,
        &[255, 255, 0, 1, 0, 2, 0, 3, 0, 4, 0, 5, 0, 6, 0, 7, 0, 8, 0, 9, 0, 10, 0, 11, 0, 12,
            0, 13, 0, 14, 0, 15, 0, 0], 16, Err((16, 32))),
    ("no-count-of-9", 9, &[1, 0], 9, Err((16, 2))),
    ("half-a-count-of-9", 9, &[1, 0, 0], 9, Err((16, 3))),
    ("no-second-count-of-16", 16, &[128, 1, 0, 1], 16, Err((16, 4))),
    ("half-a-last-count-of-16", 16,
        &[255, 255, 0, 1, 0, 2, 0, 3, 0, 4, 0, 5, 0, 6, 0, 7, 0, 8, 0, 9, 0, 10, 0, 11, 0, 12,
            0, 13, 0, 14, 0, 15, 0], 16, Err((16, 33))),
    ("one-left-of-9", 9, &[0, 0, 0], 9, Err((16, 2))),
    ("two-left-of-9", 9, &[0, 0, 0, 1], 9, Err((16, 2))),
    ("one-left-after-count-of-16", 16, &[128, 0, 0, 1, 0], 16, Err((16, 4))),
    ("one-left-after-all-of-16", 16,
        &[255, 255, 0, 1, 0, 2, 0, 3, 0, 4, 0, 5, 0, 6, 0, 7, 0, 8, 0, 9, 0, 10, 0, 11, 0, 12,
            0, 13, 0, 14, 0, 15, 0, 16, 0], 16, Err((16, 34))),
    ("count-before-left-over-of-9", 9, &[1, 0, 0, 0, 9], 9, Err((16, 2))),
    ("list-of-8-for-9", 9, &[1, 0, 0, 5], 8, Err((15, 9))),
    ("list-of-8-for-16", 16, &[0, 0], 8, Err((15, 16))),
    ("list-of-15-for-16", 16, &[0, 1, 0, 5], 15, Err((15, 16))),
    ("list-of-14-for-15", 15, &[0, 1, 0, 5], 14, Err((15, 15))),
    ("list-empty-for-9", 9, &[0, 0], 0, Err((15, 9))),
    ("list-empty-for-16", 16, &[128, 0, 0, 1], 0, Err((15, 16))),
    ("16-before-15-of-9", 9, &[0, 0, 0], 0, Err((16, 2))),
    ("16-before-15-of-16", 16, &[128, 0, 4, 1], 15, Err((16, 2))),
];

/// Slips read with another N than they were written for. What was written for at most 8 ranks has an
/// odd length and what was written for more an even one, so none of one form is read as the other.
#[rustfmt::skip]
const OTHER: [Row; 19] = [
    // written for 8: the map's second byte is the first count's first
    ("written-for-8-none-read-for-9", 9, &[0], 9, Err((16, 1))),
    ("written-for-8-none-read-for-16", 16, &[0], 16, Err((16, 1))),
    ("written-for-8-first-read-for-9", 9, &[1, 0, 5], 9, Err((16, 3))),
    ("written-for-8-two-read-for-9", 9, &[3, 0, 5, 0, 7], 9, Err((16, 0))),
    ("written-for-8-two-read-for-16", 16, &[3, 0, 5, 0, 7], 16, Err((16, 2))),
    ("written-for-8-other-two-read-for-16", 16, &[3, 0, 1, 0, 7], 16, Err((16, 5))),
    ("written-for-8-eighth-read-for-16", 16, &[128, 4, 0], 16, Err((16, 3))),
    ("written-for-8-eighth-read-for-15", 15, &[128, 4, 0], 15, Err((16, 0))),
    // written for more: the map's second byte is the first of the first count, or left over
    ("written-for-9-none-read-for-8", 8, &[0, 0], 8, Err((16, 1))),
    ("written-for-9-first-read-for-8", 8, &[0, 1, 0, 5], 8, Err((16, 1))),
    ("written-for-9-ninth-read-for-8", 8, &[1, 0, 0, 5], 8, Err((16, 1))),
    ("written-for-9-ninth-read-for-1", 1, &[1, 0, 0, 5], 1, Err((16, 1))),
    ("written-for-9-two-read-for-8", 8, &[1, 1, 0, 1, 0, 2], 8, Err((16, 3))),
    ("written-for-16-read-for-8", 8, &[128, 1, 0, 1, 0, 2], 8, Err((16, 3))),
    ("written-for-16-read-for-7", 7, &[128, 1, 0, 1, 0, 2], 7, Err((16, 0))),
    // both maps of two bytes
    ("written-for-9-read-for-16", 16, &[1, 0, 0, 5], 16,
        Ok(&[0, 0, 0, 0, 0, 0, 0, 0, 5, 0, 0, 0, 0, 0, 0, 0])),
    ("written-for-16-ninth-read-for-9", 9, &[1, 0, 0, 5], 9, Ok(&[0, 0, 0, 0, 0, 0, 0, 0, 5])),
    ("written-for-16-sixteenth-read-for-15", 15, &[128, 0, 0, 5], 15, Err((16, 0))),
    // both maps of one byte
    ("written-for-8-read-for-3", 3, &[4, 0, 5], 3, Ok(&[0, 0, 5])),
];

/// All cases of the slip reader.
pub fn cases() -> Result<Vec<Case>, String> {
    let rows = [&READ[..], &REFUSED, &OTHER].concat();
    by_hand(&format!("{FAMILY}-slip"), &rows)
}
