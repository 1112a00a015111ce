//! The harness must catch a subject that reads the fields of #105, #107 and #108 in a wrong way: N
//! and ranks; the count, map bit 7, and the transition's high byte; map bit 6 and a pop's remote
//! rank.

mod common;

use common::{assert_caught, assert_caught_and_misjudged, first_caught, first_misjudged};
use second::bytes::{below, within, ByteReader};
use second::check::{accept_items, fill_bytes, Accepted};
use second::harness::Subject;
use second::limits::{refuse, Outcome, LONG_COUNT};
use second::program::{read_transition, Kind, Program, Transition};
use second::record::{maps, Act, Cell, Item, Pop, HIGH_BIT, REMOTE_BIT};
use second::start::start_of;
use std::ops::RangeInclusive;

/// The field after which the high byte or the remote rank is read.
#[derive(Clone, Copy, PartialEq, Eq)]
enum After {
    /// The low byte, or the queue.
    Low,
    /// The place.
    Place,
    /// The value, which is the last of the others.
    Value,
}

/// The byte at which a fault of a field is placed.
#[derive(Clone, Copy, PartialEq, Eq)]
enum Placed {
    /// The field's first byte.
    There,
    /// The byte that the field belongs to: the count byte, the low byte, or the queue.
    Before,
}

/// How the fields of #105, #107 and #108 are read.
struct Rules {
    /// The largest N.
    most_ranks: usize,
    /// The largest rank of an item in a program of N ranks.
    most_rank: fn(usize) -> usize,
    /// The largest rank of an item's place in a program of N ranks.
    most_owner: fn(usize) -> usize,
    /// The rank that the replay takes for this one.
    replayed_rank: fn(usize) -> usize,
    /// The numbers that the count byte may say.
    short_counts: RangeInclusive<usize>,
    /// The numbers that the two-byte count may say.
    long_counts: RangeInclusive<usize>,
    /// Where a two-byte count outside its range is placed.
    long_count: Placed,
    /// From how many transitions on bit 7 may stand.
    high_bit_from: usize,
    /// Whether bit 7 may stand without bit 1, in pops.
    high_bit_of_pops: bool,
    /// Whether the low byte is judged alone, also with bit 7.
    low_alone: bool,
    /// Where the high byte is read.
    high_after: After,
    /// The lowest high byte.
    lowest_high: usize,
    /// How far the number may lie beyond the last transition.
    beyond: usize,
    /// Where a fault of the high byte is placed.
    high: Placed,
    /// The number that low and high byte make.
    number: fn(usize, usize) -> usize,
    /// The transition that the replay takes for this number.
    replayed: fn(usize) -> usize,
    /// Whether an item of this kind may have bit 6.
    may_name: fn(Kind) -> bool,
    /// The remote ranks that a pop may name in a program of N ranks.
    remotes: fn(usize) -> RangeInclusive<usize>,
    /// Where the remote rank is read.
    remote_after: After,
    /// Where a fault of the remote rank is placed.
    remote: Placed,
    /// The remote rank that the replay takes for this one.
    replayed_remote: fn(usize) -> Option<usize>,
}

/// The rules of #105, #107 and #108.
const RIGHT: Rules = Rules {
    most_ranks: 16,
    most_rank: |ranks| ranks,
    most_owner: |ranks| ranks,
    replayed_rank: |rank| rank,
    short_counts: 0..=128,
    long_counts: 129..=400,
    long_count: Placed::There,
    high_bit_from: 0,
    high_bit_of_pops: false,
    low_alone: false,
    high_after: After::Value,
    lowest_high: 1,
    beyond: 0,
    high: Placed::There,
    number: |low, high| 256 * high + low,
    replayed: |number| number,
    may_name: Kind::is_pop,
    remotes: |ranks| 1..=ranks,
    remote_after: After::Value,
    remote: Placed::There,
    replayed_remote: Some,
};

impl Rules {
    /// Reads program, start and record, and replays.
    fn accept(&self, program: &[u8], start: &[u8], record: &[u8]) -> Outcome<Accepted> {
        let program = self.read_program(program)?;
        let start = start_of(&program, start)?;
        let mut reader = ByteReader::new(record, 4);
        let count = reader.word_within(0..=1024, 5)?;
        let mut items = Vec::new();
        for _ in 0..count {
            items.push(self.read_item(&mut reader, &program)?);
        }
        reader.finish()?;
        accept_items(program, start, items)
    }

    /// Reads a program.
    fn read_program(&self, bytes: &[u8]) -> Outcome<Program> {
        let mut reader = ByteReader::new(bytes, 1);
        let mut header = [0; 5];
        for (number, highest) in header.iter_mut().zip([self.most_ranks, 64, 16, 4, 64]) {
            *number = reader.byte_within(1..=highest, 2)?;
        }
        let [ranks, cells, registers, queues, states] = header;
        let count = self.read_count(&mut reader)?;
        let transitions: Outcome<Vec<Transition>> = (0..count)
            .map(|_| read_transition(&mut reader, states, registers))
            .collect();
        let transitions = transitions?;
        reader.finish()?;
        Ok(Program {
            ranks,
            cells,
            registers,
            queues,
            states,
            transitions,
        })
    }

    /// Reads the count of transitions.
    fn read_count(&self, reader: &mut ByteReader) -> Outcome<usize> {
        let byte_place = reader.place();
        let byte = reader.byte()?;
        if byte != LONG_COUNT || self.short_counts.contains(&255) {
            return within(byte.into(), self.short_counts.clone(), 2, byte_place);
        }
        let place = match self.long_count {
            Placed::There => reader.place(),
            Placed::Before => byte_place,
        };
        let count = reader.word()?;
        within(count.into(), self.long_counts.clone(), 2, place)
    }

    /// Reads an item.
    fn read_item(&self, reader: &mut ByteReader, program: &Program) -> Outcome<Item> {
        let map_place = reader.place();
        let map = reader.byte()?;
        let kind_place = reader.place();
        let Some(kind) = Kind::from_byte(reader.byte()?) else {
            return refuse(6, kind_place);
        };
        if !self.takes(kind, map, program) {
            return refuse(6, map_place);
        }
        self.read_fields(reader, program, kind, map)
    }

    /// Whether the kind may have this map.
    fn takes(&self, kind: Kind, map: u8, program: &Program) -> bool {
        let enough = program.transitions.len() >= self.high_bit_from;
        let may_be_high = enough && (!kind.is_pop() || self.high_bit_of_pops);
        maps(kind).contains(&(map & !HIGH_BIT & !REMOTE_BIT))
            && (map & HIGH_BIT == 0 || may_be_high)
            && (map & REMOTE_BIT == 0 || (self.may_name)(kind))
    }

    /// Reads the fields after map and kind.
    fn read_fields(
        &self,
        reader: &mut ByteReader,
        program: &Program,
        kind: Kind,
        map: u8,
    ) -> Outcome<Item> {
        let rank = reader.byte_within(1..=(self.most_rank)(program.ranks), 5)?;
        let rank = (self.replayed_rank)(rank).min(program.ranks);
        let low_place = reader.place();
        let low = reader.byte()?.into();
        let others = match (kind.is_pop(), map & HIGH_BIT) {
            (true, _) => below(program.queues),
            (false, 0) => below(program.transitions.len()),
            (false, _) if self.low_alone => below(program.transitions.len()),
            (false, _) => 0..=255,
        };
        let mut number = within(low, others, 5, low_place)?;
        let mut remote = None;
        let mut read_late = |reader: &mut ByteReader, after| {
            if map & REMOTE_BIT != 0 && self.remote_after == after {
                remote = self.read_remote(reader, program, low_place)?;
            }
            if map & HIGH_BIT != 0 && self.high_after == after {
                number = self.read_high(reader, program, low, low_place)?;
            }
            Ok(())
        };
        read_late(reader, After::Low)?;
        let mut place = None;
        if map & 8 != 0 {
            let rank = reader.byte_within(1..=(self.most_owner)(program.ranks), 5)?;
            let cell = reader.word_within(below(program.cells), 5)?;
            place = Some(Cell { rank, cell });
        }
        read_late(reader, After::Place)?;
        let mut value = None;
        if map & 32 != 0 {
            value = Some(reader.word()?);
        }
        read_late(reader, After::Value)?;
        let last = program.transitions.len().max(1) - 1;
        let pop = Pop {
            rank,
            queue: low,
            remote,
        };
        let act = match kind {
            Kind::PopA => Act::PopA(pop),
            Kind::PopB => Act::PopB(pop),
            _ => Act::Command {
                kind,
                rank,
                transition: (self.replayed)(number).min(last),
            },
        };
        Ok(Item { act, place, value })
    }

    /// Reads the remote rank and gives the one that the replay takes.
    fn read_remote(
        &self,
        reader: &mut ByteReader,
        program: &Program,
        queue_place: usize,
    ) -> Outcome<Option<usize>> {
        let place = match self.remote {
            Placed::There => reader.place(),
            Placed::Before => queue_place,
        };
        let remotes = (self.remotes)(program.ranks);
        let remote = within(reader.byte()?.into(), remotes, 5, place)?;
        Ok((self.replayed_remote)(remote))
    }

    /// Reads the high byte and gives the number.
    fn read_high(
        &self,
        reader: &mut ByteReader,
        program: &Program,
        low: usize,
        low_place: usize,
    ) -> Outcome<usize> {
        let place = match self.high {
            Placed::There => reader.place(),
            Placed::Before => low_place,
        };
        let high = within(reader.byte()?.into(), self.lowest_high..=255, 5, place)?;
        let transitions = below(program.transitions.len() + self.beyond);
        within((self.number)(low, high), transitions, 5, place)
    }
}

/// Fails unless a subject with these rules is caught, be it on refused inputs only.
fn assert_rules_caught(rules: Rules) {
    assert_caught(&|program, start, record, order, cells| {
        fill_bytes(rules.accept(program, start, record), order, cells)
    });
}

/// Fails unless a subject with these rules is caught, also on accepted records.
fn assert_rules_misjudged(rules: Rules) {
    assert_caught_and_misjudged(&|program, start, record, order, cells| {
        fill_bytes(rules.accept(program, start, record), order, cells)
    });
}

#[test]
fn the_right_rules_are_not_caught() {
    let subject: Subject = &|program, start, record, order, cells| {
        fill_bytes(RIGHT.accept(program, start, record), order, cells)
    };
    assert_eq!(first_caught(subject), None);
    assert_eq!(first_misjudged(subject), None);
}

#[test]
fn an_n_in_its_range_refused() {
    for most_ranks in [8, 9, 15] {
        assert_rules_misjudged(Rules {
            most_ranks,
            ..RIGHT
        });
    }
}

#[test]
fn an_n_above_16_taken() {
    for most_ranks in [17, 18, 32, 255] {
        assert_rules_caught(Rules {
            most_ranks,
            ..RIGHT
        });
    }
}

#[test]
fn a_rank_of_an_item_above_8_refused() {
    assert_rules_misjudged(Rules {
        most_rank: |ranks| ranks.min(8),
        ..RIGHT
    });
}

#[test]
fn a_rank_of_an_item_above_n_taken() {
    for most_rank in [|ranks| ranks + 1, |_| 16, |ranks: usize| ranks.max(8)] {
        assert_rules_caught(Rules { most_rank, ..RIGHT });
    }
}

#[test]
fn a_rank_of_a_place_above_8_refused() {
    assert_rules_misjudged(Rules {
        most_owner: |ranks| ranks.min(8),
        ..RIGHT
    });
}

#[test]
fn a_rank_of_a_place_above_n_taken() {
    for most_owner in [|ranks| ranks + 1, |_| 16, |ranks: usize| ranks.max(8)] {
        assert_rules_caught(Rules {
            most_owner,
            ..RIGHT
        });
    }
}

#[test]
fn a_rank_cut_to_its_low_bits() {
    assert_rules_misjudged(Rules {
        replayed_rank: |rank| (rank - 1) % 8 + 1,
        ..RIGHT
    });
}

#[test]
fn a_count_byte_from_129_on_taken_as_a_count() {
    for highest in [129, 200, 254] {
        assert_rules_caught(Rules {
            short_counts: 0..=highest,
            ..RIGHT
        });
    }
}

#[test]
fn a_count_byte_of_255_taken_as_a_count() {
    assert_rules_misjudged(Rules {
        short_counts: 0..=255,
        ..RIGHT
    });
}

#[test]
fn a_count_byte_of_128_refused() {
    assert_rules_misjudged(Rules {
        short_counts: 0..=127,
        ..RIGHT
    });
}

#[test]
fn a_short_count_taken_in_the_long_form() {
    for lowest in [0, 1, 128] {
        assert_rules_caught(Rules {
            long_counts: lowest..=400,
            ..RIGHT
        });
    }
}

#[test]
fn a_count_above_400_taken() {
    for highest in [401, 65535] {
        assert_rules_caught(Rules {
            long_counts: 129..=highest,
            ..RIGHT
        });
    }
}

#[test]
fn a_long_count_in_its_range_refused() {
    for range in [130..=400, 129..=399, 256..=400] {
        assert_rules_misjudged(Rules {
            long_counts: range,
            ..RIGHT
        });
    }
}

#[test]
fn a_fault_of_the_two_byte_count_placed_at_the_count_byte() {
    assert_rules_caught(Rules {
        long_count: Placed::Before,
        ..RIGHT
    });
}

#[test]
fn bit_7_refused_in_a_program_without_such_transitions() {
    for from in [129, 257] {
        assert_rules_caught(Rules {
            high_bit_from: from,
            ..RIGHT
        });
    }
}

#[test]
fn bit_7_always_refused() {
    assert_rules_misjudged(Rules {
        high_bit_from: 401,
        ..RIGHT
    });
}

#[test]
fn bit_7_taken_with_a_pop() {
    assert_rules_caught(Rules {
        high_bit_of_pops: true,
        ..RIGHT
    });
}

#[test]
fn the_low_byte_judged_alone_although_bit_7_stands() {
    assert_rules_caught(Rules {
        low_alone: true,
        ..RIGHT
    });
}

#[test]
fn the_high_byte_read_too_early() {
    for after in [After::Low, After::Place] {
        assert_rules_misjudged(Rules {
            high_after: after,
            ..RIGHT
        });
    }
}

#[test]
fn a_high_byte_of_0_taken() {
    assert_rules_caught(Rules {
        lowest_high: 0,
        ..RIGHT
    });
}

#[test]
fn a_number_taken_that_is_no_transitions() {
    for beyond in [1, 65536] {
        assert_rules_caught(Rules { beyond, ..RIGHT });
    }
}

#[test]
fn a_fault_of_the_high_byte_placed_at_the_low_byte() {
    assert_rules_caught(Rules {
        high: Placed::Before,
        ..RIGHT
    });
}

#[test]
fn the_high_byte_dropped() {
    assert_rules_misjudged(Rules {
        number: |low, _| low,
        ..RIGHT
    });
}

#[test]
fn the_high_byte_taken_as_the_low_one() {
    assert_rules_misjudged(Rules {
        number: |low, high| 256 * low + high,
        ..RIGHT
    });
}

#[test]
fn a_number_cut_to_8_bits_in_the_replay() {
    assert_rules_misjudged(Rules {
        replayed: |number| number % 256,
        ..RIGHT
    });
}

#[test]
fn bit_6_always_refused() {
    assert_rules_misjudged(Rules {
        may_name: |_| false,
        ..RIGHT
    });
}

#[test]
fn bit_6_refused_with_one_of_the_pops() {
    for may_name in [|kind| kind == Kind::PopA, |kind: Kind| kind == Kind::PopB] {
        assert_rules_misjudged(Rules { may_name, ..RIGHT });
    }
}

#[test]
fn bit_6_taken_with_a_command() {
    assert_rules_caught(Rules {
        may_name: |_| true,
        ..RIGHT
    });
    for may_name in [
        |kind: Kind| kind.is_pop() || kind.is_transfer(),
        |kind: Kind| kind.is_pop() || kind == Kind::Load,
        |kind: Kind| kind.is_pop() || kind == Kind::Store,
    ] {
        assert_rules_caught(Rules { may_name, ..RIGHT });
    }
}

#[test]
fn a_remote_rank_outside_its_range_left_to_the_replay() {
    for remotes in [
        |ranks| 0..=ranks,
        |ranks| 1..=ranks + 1,
        |_| 1..=16,
        |_| 1..=255,
        |_| 0..=255,
    ] {
        assert_rules_caught(Rules { remotes, ..RIGHT });
    }
}

#[test]
fn a_remote_rank_in_its_range_refused() {
    for remotes in [
        |ranks| 1..=ranks - 1,
        |ranks| 2..=ranks,
        |ranks: usize| 1..=ranks.min(8),
    ] {
        assert_rules_misjudged(Rules { remotes, ..RIGHT });
    }
}

#[test]
fn the_remote_rank_read_too_early() {
    for after in [After::Low, After::Place] {
        assert_rules_misjudged(Rules {
            remote_after: after,
            ..RIGHT
        });
    }
}

#[test]
fn a_fault_of_the_remote_rank_placed_at_the_queue() {
    assert_rules_caught(Rules {
        remote: Placed::Before,
        ..RIGHT
    });
}

#[test]
fn the_remote_rank_read_and_dropped() {
    assert_rules_misjudged(Rules {
        replayed_remote: |_| None,
        ..RIGHT
    });
}

#[test]
fn the_remote_rank_cut_to_its_low_bits() {
    assert_rules_misjudged(Rules {
        replayed_remote: |remote| Some((remote - 1) % 8 + 1),
        ..RIGHT
    });
}

#[test]
fn the_remote_rank_numbered_from_0() {
    assert_rules_misjudged(Rules {
        remotes: |ranks| 0..=ranks - 1,
        replayed_remote: |remote| Some(remote + 1),
        ..RIGHT
    });
}

#[test]
fn a_number_cut_to_7_bits_in_the_replay() {
    assert_rules_misjudged(Rules {
        replayed: |number| number % 128,
        ..RIGHT
    });
}
