//! The harness must catch a wrong slip reader, by generated slips and by the corpus.

mod common;

use common::{assert_extras_caught, assert_extras_right, told};
use second::extras::{slip_read, Extras, Functions, Reader, Told, DONE, SECOND};
use second::limits::Refusal;

/// Fails unless this slip reader is caught.
fn assert_slip_reader_caught(subject: Reader) {
    let subject = Extras::between_guards(Functions {
        read_slip: subject,
        ..SECOND
    });
    assert_extras_caught("slip reader", &subject);
}

/// A slip reader's rules, some of them wrong.
struct Rules {
    /// The bit of a rank's index among so many.
    bit_of: fn(usize, usize) -> usize,
    /// The counts that are taken.
    counts: std::ops::RangeInclusive<usize>,
    /// The largest N.
    most_ranks: usize,
    /// The smallest N.
    least_ranks: usize,
    /// The map's number of bytes for N.
    map_length: fn(usize) -> usize,
    /// The map that its bytes make.
    map: fn(&[u8]) -> usize,
    /// Where a bit above N is placed.
    bits_above_at: usize,
    /// Where half a map is placed, if not at the length.
    half_map_at: Option<usize>,
    /// Whether a bit above N is refused.
    bits_above: bool,
    /// Whether bytes left over are refused.
    left_over: bool,
    /// Whether a missing byte is refused, and else taken as 1.
    missing: bool,
    /// Where a bad count is placed after its first byte.
    bad_count_at: usize,
    /// Whether 15 comes before 16.
    short_first: bool,
    /// What a rank without a bit has.
    without_bit: Option<u16>,
    /// Whether counts are filled as they are read, also before a fault.
    filled_at_once: bool,
}

/// The right rules.
const RIGHT: Rules = Rules {
    bit_of: |index, _| index,
    counts: 1..=1024,
    most_ranks: 16,
    least_ranks: 1,
    map_length: |ranks| if ranks > 8 { 2 } else { 1 },
    map: |bytes| {
        bytes
            .iter()
            .fold(0, |map, &byte| 256 * map + usize::from(byte))
    },
    bits_above_at: 0,
    half_map_at: None,
    bits_above: true,
    left_over: true,
    missing: true,
    bad_count_at: 0,
    short_first: false,
    without_bit: Some(0),
    filled_at_once: false,
};

/// A slip reader with its own rules.
fn read(rules: &Rules, ranks: usize, slip: &[u8], counts: &mut [u16]) -> Told {
    let short = told(15, ranks);
    if rules.short_first && counts.len() < ranks {
        return short;
    }
    let read = match read_entries(rules, ranks, slip) {
        Ok(read) => read,
        Err((refusal, read)) => {
            if rules.filled_at_once {
                fill(counts, &read);
            }
            return refusal.into();
        }
    };
    if counts.len() < ranks {
        return short;
    }
    fill(counts, &read);
    told(DONE, ranks)
}

/// Entries read, each with its count or to be left as it was.
type Entries = Vec<Option<u16>>;

/// Fills the entries that have a count.
fn fill(counts: &mut [u16], read: &[Option<u16>]) {
    for (entry, count) in counts.iter_mut().zip(read) {
        *entry = count.unwrap_or(*entry);
    }
}

/// The entries of a slip by these rules, or a refusal with the entries read before it.
fn read_entries(rules: &Rules, ranks: usize, slip: &[u8]) -> Result<Entries, (Refusal, Entries)> {
    let mut read = Vec::new();
    let refuse = |place, read| Err((Refusal { number: 16, place }, read));
    if ranks < rules.least_ranks || ranks > rules.most_ranks {
        return refuse(0, read);
    }
    let mut at = (rules.map_length)(ranks);
    let Some(map) = slip.get(..at).map(rules.map) else {
        return refuse(rules.half_map_at.unwrap_or(slip.len()), read);
    };
    let above = map.checked_shr(ranks as u32);
    if rules.bits_above && above.is_some_and(|bits| bits != 0) {
        return refuse(rules.bits_above_at, read);
    }
    for index in 0..ranks {
        let bit = (rules.bit_of)(index, ranks);
        if bit > 15 || map >> bit & 1 == 0 {
            read.push(rules.without_bit);
            continue;
        }
        let byte = |at: usize| match slip.get(at) {
            None if !rules.missing => Some(1),
            byte => byte.copied(),
        };
        let (Some(high), Some(low)) = (byte(at), byte(at + 1)) else {
            return refuse(slip.len(), read);
        };
        let count = u16::from_be_bytes([high, low]);
        if !rules.counts.contains(&usize::from(count)) {
            return refuse(at + rules.bad_count_at, read);
        }
        read.push(Some(count));
        at += 2;
    }
    if rules.left_over && at < slip.len() {
        return refuse(at, read);
    }
    Ok(read)
}

/// Fails unless a slip reader with these rules is caught.
fn assert_rules_caught(rules: Rules) {
    assert_slip_reader_caught(&|ranks, slip, counts| read(&rules, ranks, slip, counts));
}

#[test]
fn the_right_rules_are_not_caught() {
    let reader: Reader = &|ranks, slip, counts| read(&RIGHT, ranks, slip, counts);
    assert_extras_right(&Extras::between_guards(Functions {
        read_slip: reader,
        ..SECOND
    }));
}

#[test]
fn an_invented_count_read() {
    assert_rules_caught(Rules {
        without_bit: Some(1),
        ..RIGHT
    });
    assert_slip_reader_caught(&|ranks, slip, counts| {
        let done = slip_read(ranks, slip, counts);
        if done.number == DONE {
            counts[..ranks]
                .iter_mut()
                .for_each(|count| *count = (*count).min(1));
        }
        done
    });
}

#[test]
fn a_rank_without_a_bit_left_as_it_was() {
    assert_rules_caught(Rules {
        without_bit: None,
        ..RIGHT
    });
}

#[test]
fn map_bits_read_from_the_other_end() {
    assert_rules_caught(Rules {
        bit_of: |index, ranks| ranks - 1 - index,
        ..RIGHT
    });
    assert_rules_caught(Rules {
        bit_of: |index, ranks| 8 * (RIGHT.map_length)(ranks) - 1 - index,
        bits_above: false,
        ..RIGHT
    });
}

#[test]
fn a_count_of_0_read() {
    assert_rules_caught(Rules {
        counts: 0..=1024,
        ..RIGHT
    });
}

#[test]
fn a_count_outside_its_range_read() {
    for most in [1025, 65_535] {
        assert_rules_caught(Rules {
            counts: 1..=most,
            ..RIGHT
        });
    }
    assert_rules_caught(Rules {
        counts: 1..=1023,
        ..RIGHT
    });
}

#[test]
fn too_short_said_before_a_slip_is_refused() {
    assert_rules_caught(Rules {
        short_first: true,
        ..RIGHT
    });
}

#[test]
fn bytes_left_over_or_missing_taken() {
    assert_rules_caught(Rules {
        left_over: false,
        ..RIGHT
    });
    assert_rules_caught(Rules {
        missing: false,
        ..RIGHT
    });
}

#[test]
fn a_bit_above_n_taken() {
    assert_rules_caught(Rules {
        bits_above: false,
        ..RIGHT
    });
}

#[test]
fn an_n_outside_its_range_taken() {
    for most_ranks in [8, 9, 15, 17, 255] {
        assert_rules_caught(Rules {
            most_ranks,
            ..RIGHT
        });
    }
    for least_ranks in [0, 2] {
        assert_rules_caught(Rules {
            least_ranks,
            ..RIGHT
        });
    }
}

#[test]
fn a_bad_count_placed_at_its_second_byte() {
    assert_rules_caught(Rules {
        bad_count_at: 1,
        ..RIGHT
    });
}

#[test]
fn counts_filled_before_a_fault() {
    assert_rules_caught(Rules {
        filled_at_once: true,
        ..RIGHT
    });
}

#[test]
fn counts_filled_although_too_short() {
    assert_slip_reader_caught(&|ranks, slip, counts| {
        let short = slip_read(ranks, slip, counts);
        let mut longer = [0; 16];
        if short.number == 15 && slip_read(ranks, slip, &mut longer).number == DONE {
            counts.copy_from_slice(&longer[..counts.len()]);
        }
        short
    });
}

#[test]
fn entries_beyond_the_counts_cleared() {
    assert_slip_reader_caught(&|ranks, slip, counts| {
        let done = slip_read(ranks, slip, counts);
        if done.number == DONE {
            counts[ranks..].fill(0);
        }
        done
    });
}

#[test]
fn counts_filled_as_big_endian_bytes() {
    assert_slip_reader_caught(&|ranks, slip, counts| {
        let done = slip_read(ranks, slip, counts);
        if done.number == DONE {
            counts[..ranks]
                .iter_mut()
                .for_each(|count| *count = count.swap_bytes());
        }
        done
    });
}

#[test]
fn the_count_of_bits_told_instead_of_n() {
    assert_slip_reader_caught(&|ranks, slip, counts| {
        let done = slip_read(ranks, slip, counts);
        match done.number {
            DONE => told(DONE, (slip.len() - 1) / 2),
            _ => done,
        }
    });
}

#[test]
fn a_length_of_counts_cut_to_16_bits() {
    assert_slip_reader_caught(&|ranks, slip, counts| {
        let length = counts.len() % 65_536;
        slip_read(ranks, slip, &mut counts[..length])
    });
}

#[test]
fn a_length_of_counts_taken_in_bytes() {
    assert_slip_reader_caught(&|ranks, slip, counts| {
        let entries = counts.len() / 2;
        slip_read(ranks, slip, &mut counts[..entries])
    });
}

#[test]
fn no_value_told_of_a_slip_read() {
    assert_slip_reader_caught(&|ranks, slip, counts| {
        told(slip_read(ranks, slip, counts).number, usize::MAX)
    });
}

#[test]
fn the_length_of_a_map_not_by_n() {
    for map_length in [
        |_| 1,
        |_| 2,
        |ranks| if ranks > 7 { 2 } else { 1 },
        |ranks| if ranks > 9 { 2 } else { 1 },
        |ranks| if ranks > 15 { 2 } else { 1 },
    ] {
        assert_rules_caught(Rules {
            map_length,
            ..RIGHT
        });
    }
}

#[test]
fn the_low_byte_of_a_map_read_first() {
    assert_rules_caught(Rules {
        map: |bytes| {
            bytes
                .iter()
                .rfold(0, |map, &byte| 256 * map + usize::from(byte))
        },
        ..RIGHT
    });
}

#[test]
fn one_byte_of_a_map_dropped() {
    assert_rules_caught(Rules {
        map: |bytes| (RIGHT.map)(bytes) % 256,
        ..RIGHT
    });
    assert_rules_caught(Rules {
        map: |bytes| bytes[0].into(),
        ..RIGHT
    });
}

#[test]
fn a_bit_above_n_placed_behind_the_first_byte() {
    assert_rules_caught(Rules {
        bits_above_at: 1,
        ..RIGHT
    });
}

#[test]
fn half_a_map_placed_at_its_first_byte() {
    assert_rules_caught(Rules {
        half_map_at: Some(0),
        ..RIGHT
    });
}
