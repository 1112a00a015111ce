//! #108 of document 02 by bytes that are written out here: a read that overtakes a write, and each
//! fault of the remote ranks that its pops name.

use second::check::{answer, Answer};
use second::limits::Refusal;
use second::listing::listing_text;
use second::slip::write_slip;

/// N 3, A 2, R 1, Q 1, S 1, T 3.
#[rustfmt::skip]
const PROGRAM: [u8; 48] = [
    3, 2, 1, 1, 1, 3,
    30, 6, 0, 0,  0, 0, 0,  0, 0, 2,  0, 0, 1,  0, 0, 0, // 0: write of cell 0 to cell 1 of rank 2
    30, 5, 0, 0,  0, 0, 0,  0, 0, 3,  0, 0, 0,  0, 0, 0, // 1: read of cell 0 of rank 3 into cell 0
    6, 2, 0, 0,  0, 0, 0,  0, 0, 7,                      // 2: store of 7 in cell 0
];

/// The read is fetched and delivered before the write is fetched: a ring of the two, groups 1 and 2.
#[rustfmt::skip]
const RECORD: [u8; 51] = [
    0, 7,
    27, 2, 3, 2, 3, 0, 0,             // 2: item 0, store of rank 3
    3, 6, 1, 0,                       // 9: item 1, write of rank 1
    3, 5, 1, 1,                       // 13: item 2, read of rank 1
    125, 7, 1, 0, 3, 0, 0, 0, 7, 3,   // 17: item 3, popa naming rank 3, at its cell 0, value 7
    29, 8, 1, 0, 1, 0, 0,             // 27: item 4, popb of the only delivery
    29, 7, 1, 0, 1, 0, 0,             // 34: item 5, popa of the only request left
    125, 8, 1, 0, 2, 0, 1, 0, 7, 2,   // 41: item 6, popb naming rank 2, at its cell 1, value 7
];

/// The place of the remote rank of item 3.
const POPA_REMOTE: usize = 26;
/// The place of the remote rank of item 6.
const POPB_REMOTE: usize = 50;

/// The refusal of the record with some bytes replaced.
fn refusal(changes: &[(usize, u8)]) -> Option<(u8, usize)> {
    let mut record = RECORD;
    for &(at, byte) in changes {
        record[at] = byte;
    }
    refusal_of(&record)
}

/// The refusal of a record.
fn refusal_of(record: &[u8]) -> Option<(u8, usize)> {
    match answer(&PROGRAM, &[], record, 8, 8).answer {
        Answer::Refused(Refusal { number, place }) => Some((number, place)),
        _ => None,
    }
}

#[test]
fn a_read_overtakes_a_write() {
    let filled = answer(&PROGRAM, &[], &RECORD, 3, 6);
    assert_eq!(filled.answer, Answer::Ring(2));
    assert_eq!(filled.groups, [1, 2]);
    assert_eq!(filled.cells, [7, 0, 0, 7, 7, 0]);
    let mut slip = [0; 5];
    assert_eq!(write_slip(&PROGRAM, &[], &RECORD, &mut slip), Ok(5));
    assert_eq!(slip, [5, 0, 2, 0, 1]);
    let lines = "ring 2\ngroup 1 write 1 1\ngroup 2 read 1 2\n\
        cell 1 0 7\ncell 2 1 7\ncell 3 0 7\n";
    assert_eq!(listing_text(&PROGRAM, &[], &RECORD).0, lines);
}

#[test]
fn a_remote_rank_outside_its_range_is_5_at_its_byte() {
    for remote in (4..=255).chain([0]) {
        assert_eq!(refusal(&[(POPA_REMOTE, remote)]), Some((5, POPA_REMOTE)));
        assert_eq!(refusal(&[(POPB_REMOTE, remote)]), Some((5, POPB_REMOTE)));
    }
}

#[test]
fn another_rank_is_10_if_none_waits_for_it_and_else_takes_its_entry() {
    assert_eq!(refusal(&[(POPA_REMOTE, 1)]), Some((10, 3)));
    // the write waits for rank 2, and is fetched from rank 1
    assert_eq!(refusal(&[(POPA_REMOTE, 2)]), Some((11, 3)));
    assert_eq!(refusal(&[(POPB_REMOTE, 1)]), Some((10, 6)));
    assert_eq!(refusal(&[(POPB_REMOTE, 3)]), Some((10, 6)));
}

#[test]
fn the_remote_rank_is_the_last_field() {
    assert_eq!(refusal_of(&RECORD[..POPB_REMOTE]), Some((4, POPB_REMOTE)));
    assert_eq!(refusal_of(&[&RECORD[..], &[2]].concat()), Some((4, 51)));
    // without bit 6 the 3 is the next item's map, and 29 its kind
    assert_eq!(refusal(&[(17, 61)]), Some((6, 27)));
    // with bit 6 in the map of item 4 the next item's map, 29, is its remote rank
    assert_eq!(refusal(&[(27, 93)]), Some((5, 34)));
}
