//! #105 of document 02 by bytes that are written out here: programs, records, slips and listings of
//! 8, 9 and 16 ranks, and where each limit stands.

use second::check::{answer, Answer};
use second::limits::Refusal;
use second::listing::listing_text;
use second::slip::{read_slip, write_slip};

/// N as given, A 1, R 1, Q 1, S 1, and two transitions: a bar, and a store of the own rank to cell 0.
fn program(ranks: u8) -> Vec<u8> {
    #[rustfmt::skip]
    let rest = [
        1, 1, 1, 1, 2,
        0, 9, 0, 0,
        6, 2, 0, 0,  0, 0, 0,  2,
    ];
    [&[ranks], &rest[..]].concat()
}

/// Nine bars, ranks 1 to 9.
#[rustfmt::skip]
const NINE_BARS: [u8; 38] = [
    0, 9,
    3, 9, 1, 0,  3, 9, 2, 0,  3, 9, 3, 0,  3, 9, 4, 0,  3, 9, 5, 0,  3, 9, 6, 0,  3, 9, 7, 0,
    3, 9, 8, 0,  3, 9, 9, 0,
];

/// Stores of rank 16 with the value 16, of rank 9, and of rank 8 with the value 8.
#[rustfmt::skip]
const THREE_STORES: [u8; 27] = [
    0, 3,
    59, 2, 16, 1, 16, 0, 0, 0, 16,
    27, 2, 9, 1, 9, 0, 0,
    59, 2, 8, 1, 8, 0, 0, 0, 8,
];

/// The slip of an accepted run.
fn slip(program: &[u8], record: &[u8]) -> Vec<u8> {
    let mut memory = [0; 40];
    let length = write_slip(program, &[], record, &mut memory).expect("the run is accepted");
    memory[..length].to_vec()
}

/// The refusal of a program and a record, with long enough lists.
fn refusal(program: &[u8], record: &[u8]) -> Option<(u8, usize)> {
    match answer(program, &[], record, 1024, 1024).answer {
        Answer::Refused(Refusal { number, place }) => Some((number, place)),
        _ => None,
    }
}

/// What the slip reader says: the counts, or number and place.
fn read(ranks: usize, slip: &[u8]) -> Result<Vec<u16>, (u8, usize)> {
    let mut counts = vec![7; ranks];
    match read_slip(ranks, slip, &mut counts) {
        Ok(()) => Ok(counts),
        Err(Refusal { number, place }) => Err((number, place)),
    }
}

#[test]
fn nine_bars_are_a_row_of_nine_ranks_only() {
    let filled = answer(&program(9), &[], &NINE_BARS, 1, 9);
    assert_eq!(filled.answer, Answer::Order(1));
    assert_eq!((filled.groups, filled.cells), (vec![0], vec![0; 9]));
    let row = [1, 255, 0, 1, 0, 1, 0, 1, 0, 1, 0, 1, 0, 1, 0, 1, 0, 1, 0, 1];
    assert_eq!(slip(&program(9), &NINE_BARS), row);
    let text = listing_text(&program(9), &[], &NINE_BARS).0;
    assert_eq!(text, "order 1\ngroup 0 bar 0 0\n");
    // of sixteen ranks the row stays open, and with eight there is no rank 9
    assert_eq!(refusal(&program(16), &NINE_BARS), Some((12, 9)));
    assert_eq!(refusal(&program(8), &NINE_BARS), Some((5, 36)));
}

#[test]
fn ranks_up_to_sixteen_store() {
    let filled = answer(&program(16), &[], &THREE_STORES, 3, 16);
    assert_eq!(filled.answer, Answer::Order(3));
    assert_eq!(filled.groups, [0, 1, 2]);
    let cells = [0, 0, 0, 0, 0, 0, 0, 8, 9, 0, 0, 0, 0, 0, 0, 16];
    assert_eq!(filled.cells, cells);
    assert_eq!(
        slip(&program(16), &THREE_STORES),
        [129, 128, 0, 1, 0, 1, 0, 1]
    );
    let text = listing_text(&program(16), &[], &THREE_STORES).0;
    let lines = "order 3\ngroup 0 store 16 0\ngroup 1 store 9 1\ngroup 2 store 8 2\n\
        cell 8 0 8\ncell 9 0 9\ncell 16 0 16\n";
    assert_eq!(text, lines);
    // rank 16 stands at byte 4, and is above an N of 15
    assert_eq!(refusal(&program(15), &THREE_STORES), Some((5, 4)));
    let short = answer(&program(16), &[], &THREE_STORES, 3, 15);
    let entries = Refusal {
        number: 15,
        place: 16,
    };
    assert_eq!(short.answer, Answer::Refused(entries));
}

#[test]
fn n_goes_to_16() {
    for ranks in 1..=16 {
        assert_eq!(refusal(&program(ranks), &[0, 0]), None, "{ranks}");
    }
    for ranks in (17..=255).chain([0]) {
        assert_eq!(refusal(&program(ranks), &[0, 0]), Some((2, 0)), "{ranks}");
    }
}

#[test]
fn the_map_takes_two_bytes_if_n_is_above_8() {
    for ranks in 1..=16 {
        let map: &[u8] = if ranks <= 8 { &[0] } else { &[0, 0] };
        assert_eq!(slip(&program(ranks), &[0, 0]), map, "{ranks}");
        assert_eq!(
            read(ranks.into(), map),
            Ok(vec![0; ranks.into()]),
            "{ranks}"
        );
        // a byte too few and one too many: at the length, and at the byte left over
        let short = Err((16, map.len() - 1));
        assert_eq!(read(ranks.into(), &map[1..]), short, "{ranks}");
        let long = Err((16, map.len()));
        assert_eq!(read(ranks.into(), &[map, &[0]].concat()), long, "{ranks}");
    }
}

#[test]
fn each_rank_has_its_bit() {
    for ranks in 1..=16_usize {
        for rank in 1..=16_usize {
            // the first byte of two has the bits of ranks 9 to 16
            let map = match (ranks, rank) {
                (9.., 9..) => vec![1 << (rank - 9), 0],
                (9.., _) => vec![0, 1 << (rank - 1)],
                (_, 9..) => continue,
                _ => vec![1 << (rank - 1)],
            };
            let slip = [&map[..], &[1, 2]].concat();
            let mut counts = vec![0; ranks];
            let right = match counts.get_mut(rank - 1) {
                None => Err((16, 0)),
                Some(count) => {
                    *count = 258;
                    Ok(counts)
                }
            };
            assert_eq!(read(ranks, &slip), right, "rank {rank} of {ranks}");
        }
    }
}

#[test]
fn the_slip_reader_takes_n_to_16() {
    for ranks in [0, 17, 18, 24, 255, 265, 65536 + 9] {
        for slip in [&[][..], &[0], &[0, 0], &[0, 0, 0]] {
            assert_eq!(
                read_slip(ranks, slip, &mut []),
                Err(Refusal {
                    number: 16,
                    place: 0
                })
            );
        }
    }
}
