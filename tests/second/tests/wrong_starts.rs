//! The harness must catch a subject that takes #103 in a wrong way: how start bytes are read, when
//! they are judged, where a fault is placed, and what readings are good for. The mistakes in reading
//! are made by the check and, each for itself, by slip writer, listing and reader of start bytes.

mod common;

use common::{
    assert_caught, assert_caught_and_misjudged, assert_extras_caught, assert_extras_right,
    first_caught, first_misjudged, refused, told,
};
use second::bounded::{find_bounded, Found};
use second::bytes::{fill_words, within, ByteReader};
use second::check::{accept, accept_items, check_bytes, fill_bytes, Accepted, Answer};
use second::extras::{Extras, Functions, Told, DONE, RING, SECOND};
use second::harness::Subject;
use second::limits::{Outcome, Refusal};
use second::listing::lines_of;
use second::machine::{RankStart, Start};
use second::order::Verdict;
use second::program::Program;
use second::record::read_record;
use second::slip::slip_of;
use second::start::{start_bytes, start_of};

/// How start bytes are read, some of it wrong.
#[derive(Clone, Copy)]
struct Rules {
    /// Whether no bytes at all are a start.
    empty: bool,
    /// How many bytes a map has for so many cells.
    map_bytes: fn(usize) -> usize,
    /// The map that its bytes make.
    map: fn(&[u8]) -> u64,
    /// The bit of a cell among so many.
    bit_of: fn(usize, usize) -> usize,
    /// What becomes of a bit for a cell A or above.
    above: Above,
    /// Where such a bit is placed after the map's first byte.
    above_at: usize,
    /// The value that its two bytes make.
    value: fn([u8; 2]) -> u16,
    /// The least value that may be listed.
    least: usize,
    /// Where a listed 0 is placed after its first byte.
    zero_at: usize,
    /// Whether a value stands for each cell, listed or not.
    every_value: bool,
    /// The cells of a rank in the order of their values.
    cells: fn(usize) -> Vec<usize>,
    /// Whether all maps stand before all values.
    maps_first: bool,
    /// Whether bytes left over are refused.
    left_over: bool,
    /// Whether missing bytes are taken as these, as many as may be.
    missing: Option<u8>,
    /// The number of a fault.
    number: u8,
    /// The ranks of the readings.
    ranks: fn(&mut [RankStart]),
}

/// What becomes of a bit for a cell A or above.
#[derive(Clone, Copy, PartialEq, Eq)]
enum Above {
    /// It is refused.
    Refused,
    /// It is passed over.
    Ignored,
    /// Its value is read and dropped.
    Dropped,
}

/// The rules of #103.
const RIGHT: Rules = Rules {
    empty: true,
    map_bytes: |_| 8,
    map: |bytes| {
        bytes
            .iter()
            .fold(0, |map, &byte| map << 8 | u64::from(byte))
    },
    bit_of: |cell, _| cell,
    above: Above::Refused,
    above_at: 0,
    value: u16::from_be_bytes,
    least: 1,
    zero_at: 0,
    every_value: false,
    cells: |count| (0..count).collect(),
    maps_first: false,
    left_over: true,
    missing: None,
    number: 19,
    ranks: |_| {},
};

impl Rules {
    /// The start that bytes say.
    fn start_of(&self, program: &Program, bytes: &[u8]) -> Outcome<Start> {
        let mut start = Start::zero(program);
        if bytes.is_empty() && self.empty {
            return Ok(start);
        }
        let mut bytes = bytes.to_vec();
        if let Some(missing) = self.missing {
            let longest = program.ranks * (8 + 2 * program.cells);
            bytes.resize(bytes.len().max(longest), missing);
        }
        let mut reader = ByteReader::new(&bytes, self.number);
        let mut maps = Vec::new();
        for rank in &mut start.0 {
            let map = self.read_map(&mut reader, program.cells)?;
            if self.maps_first {
                maps.push(map);
            } else {
                self.read_values(&mut reader, map, &mut rank.cells)?;
            }
        }
        for (rank, map) in start.0.iter_mut().zip(maps) {
            self.read_values(&mut reader, map, &mut rank.cells)?;
        }
        if self.left_over && self.missing.is_none() {
            reader.finish()?;
        }
        (self.ranks)(&mut start.0);
        Ok(start)
    }

    /// Reads a map of so many cells.
    fn read_map(&self, reader: &mut ByteReader, cells: usize) -> Outcome<u64> {
        let place = reader.place();
        let bytes: Outcome<Vec<u8>> = (0..(self.map_bytes)(cells))
            .map(|_| reader.byte())
            .collect();
        let map = (self.map)(&bytes?);
        let above = (cells..64).any(|cell| map >> (self.bit_of)(cell, cells) & 1 == 1);
        if above && self.above == Above::Refused {
            let place = place + self.above_at;
            return Err(Refusal {
                number: self.number,
                place,
            });
        }
        Ok(map)
    }

    /// Reads the values of a rank.
    fn read_values(&self, reader: &mut ByteReader, map: u64, cells: &mut [u16]) -> Outcome<()> {
        let count = cells.len();
        let listed = |cell: usize| map >> (self.bit_of)(cell, count) & 1 == 1;
        for cell in (self.cells)(count) {
            if listed(cell) || self.every_value {
                let value = self.read_value(reader)?;
                cells[cell] = if listed(cell) { value } else { 0 };
            }
        }
        if self.above == Above::Dropped {
            for _ in (count..64).filter(|&cell| listed(cell)) {
                reader.word()?;
            }
        }
        Ok(())
    }

    /// Reads a value.
    fn read_value(&self, reader: &mut ByteReader) -> Outcome<u16> {
        let place = reader.place() + self.zero_at;
        let bytes = [reader.byte()?, reader.byte()?];
        let value = (self.value)(bytes);
        within(value.into(), self.least..=65_535, self.number, place)?;
        Ok(value)
    }

    /// Accepts by these rules.
    fn accept(&self, program: &[u8], start: &[u8], record: &[u8]) -> Outcome<Accepted> {
        let program = Program::read(program)?;
        let start = self.start_of(&program, start)?;
        let items = read_record(record, &program)?;
        accept_items(program, start, items)
    }

    /// The reader of start bytes by these rules.
    fn read_start(&self, program: &[u8], start: &[u8], cells: &mut [u8]) -> Told {
        let read = Program::read(program).and_then(|program| self.start_of(&program, start));
        match read.map(|start| start.cells()) {
            Err(refusal) => refusal.into(),
            Ok(read) if cells.len() / 2 < read.len() => told(15, read.len()),
            Ok(read) => {
                fill_words(cells, &read);
                told(DONE, read.len())
            }
        }
    }
}

/// Writes what an accepted run comes to into memory, and tells of it.
fn written(memory: &mut [u8], number: u8, bytes: &[u8]) -> Told {
    match memory.get_mut(..bytes.len()) {
        None => told(15, bytes.len()),
        Some(lent) => {
            lent.copy_from_slice(bytes);
            told(number, bytes.len())
        }
    }
}

/// A slip writer over what was accepted or refused.
fn write_slip(accepted: Outcome<Accepted>, memory: &mut [u8]) -> Told {
    match accepted {
        Ok(accepted) => written(memory, DONE, &slip_of(&accepted)),
        Err(refusal) => refusal.into(),
    }
}

/// A listing over what was accepted or refused.
fn list(accepted: Outcome<Accepted>, memory: &mut [u8]) -> Told {
    let (number, text) = match accepted {
        Ok(accepted) => match accepted.verdict {
            Verdict::Order(_) => (DONE, lines_of(&accepted)),
            Verdict::Ring(_) => (RING, lines_of(&accepted)),
        },
        Err(Refusal { number, place }) => (number, format!("refused {number} {place}\n")),
    };
    written(memory, number, text.as_bytes())
}

/// A way to accept.
type Accept<'a> = &'a dyn Fn(&[u8], &[u8], &[u8]) -> Outcome<Accepted>;

/// Fails unless slip writer and listing are caught if they accept in this way.
fn assert_writers_caught(accept: Accept) {
    let write_slip = Functions {
        write_slip: &|program, start, record, memory| {
            write_slip(accept(program, start, record), memory)
        },
        ..SECOND
    };
    assert_extras_caught("slip writer", &Extras::between_guards(write_slip));
    let list = Functions {
        list: &|program, start, record, memory| list(accept(program, start, record), memory),
        ..SECOND
    };
    assert_extras_caught("listing", &Extras::between_guards(list));
}

/// Fails unless a check that accepts in this way is caught, and so are slip writer and listing.
fn assert_accept_caught(accept: Accept) {
    assert_caught(&|program, start, record, order, cells| {
        fill_bytes(accept(program, start, record), order, cells)
    });
    assert_writers_caught(accept);
}

/// Fails unless all functions with these rules are caught, be it on refused inputs only.
fn assert_rules_caught(rules: Rules) {
    assert_accept_caught(&|program, start, record| rules.accept(program, start, record));
    let read_start = Functions {
        read_start: &|program, start, cells| rules.read_start(program, start, cells),
        ..SECOND
    };
    assert_extras_caught("start reader", &Extras::between_guards(read_start));
}

/// Fails unless all functions with these rules are caught, the check also on accepted records.
fn assert_rules_misjudged(rules: Rules) {
    assert_rules_caught(rules);
    let subject: Subject = &|program, start, record, order, cells| {
        fill_bytes(rules.accept(program, start, record), order, cells)
    };
    let (index, fault) = first_misjudged(subject).expect("the judge must find the subject wrong");
    println!("misjudged on small record {index}: {fault}");
}

#[test]
fn the_right_rules_are_not_caught() {
    let subject: Subject = &|program, start, record, order, cells| {
        fill_bytes(RIGHT.accept(program, start, record), order, cells)
    };
    assert_eq!(first_caught(subject), None);
    assert_eq!(first_misjudged(subject), None);
    assert_extras_right(&Extras::between_guards(Functions {
        write_slip: &|program, start, record, memory| {
            write_slip(RIGHT.accept(program, start, record), memory)
        },
        list: &|program, start, record, memory| list(RIGHT.accept(program, start, record), memory),
        read_start: &|program, start, cells| RIGHT.read_start(program, start, cells),
        ..SECOND
    }));
}

#[test]
fn a_listed_0_taken() {
    assert_rules_caught(Rules { least: 0, ..RIGHT });
}

#[test]
fn a_bit_for_a_cell_a_or_above_taken() {
    for above in [Above::Ignored, Above::Dropped] {
        assert_rules_caught(Rules { above, ..RIGHT });
    }
}

#[test]
fn little_endian_maps() {
    assert_rules_misjudged(Rules {
        map: |bytes| {
            let mut bytes = bytes.to_vec();
            bytes.reverse();
            (RIGHT.map)(&bytes)
        },
        ..RIGHT
    });
}

#[test]
fn little_endian_values() {
    assert_rules_misjudged(Rules {
        value: u16::from_le_bytes,
        ..RIGHT
    });
}

#[test]
fn map_bits_from_the_other_end() {
    let others: [fn(usize, usize) -> usize; 3] = [
        |cell, _| 63 - cell,
        |cell, _| cell ^ 7,
        |cell, cells| if cell < cells { cells - 1 - cell } else { cell },
    ];
    for bit_of in others {
        assert_rules_misjudged(Rules { bit_of, ..RIGHT });
    }
}

#[test]
fn a_map_cut_to_32_bits() {
    assert_rules_caught(Rules {
        map: |bytes| (RIGHT.map)(bytes) & 0xFFFF_FFFF,
        ..RIGHT
    });
}

#[test]
fn a_map_as_long_as_the_cells_need() {
    assert_rules_misjudged(Rules {
        map_bytes: |cells| cells.div_ceil(8),
        ..RIGHT
    });
}

#[test]
fn a_bit_placed_elsewhere() {
    for above_at in [7, 8] {
        assert_rules_caught(Rules { above_at, ..RIGHT });
    }
}

#[test]
fn a_listed_0_placed_at_its_second_byte() {
    assert_rules_caught(Rules {
        zero_at: 1,
        ..RIGHT
    });
}

#[test]
fn a_value_for_every_cell() {
    assert_rules_misjudged(Rules {
        every_value: true,
        least: 0,
        ..RIGHT
    });
}

#[test]
fn values_cells_falling() {
    assert_rules_misjudged(Rules {
        cells: |count| (0..count).rev().collect(),
        ..RIGHT
    });
}

#[test]
fn all_maps_before_all_values() {
    assert_rules_misjudged(Rules {
        maps_first: true,
        ..RIGHT
    });
}

#[test]
fn bytes_left_over_taken() {
    assert_rules_caught(Rules {
        left_over: false,
        ..RIGHT
    });
}

#[test]
fn missing_bytes_taken() {
    for missing in [0, 1] {
        assert_rules_caught(Rules {
            missing: Some(missing),
            ..RIGHT
        });
    }
}

#[test]
fn no_bytes_refused() {
    assert_rules_misjudged(Rules {
        empty: false,
        ..RIGHT
    });
}

#[test]
fn another_number() {
    for number in [4, 16] {
        assert_rules_caught(Rules { number, ..RIGHT });
    }
}

#[test]
fn readings_at_the_wrong_rank() {
    let others: [fn(&mut [RankStart]); 3] = [
        |ranks| ranks.rotate_left(1),
        |ranks| ranks.reverse(),
        |ranks| {
            let first = ranks[0].clone();
            ranks.fill(first);
        },
    ];
    for ranks in others {
        assert_rules_misjudged(Rules { ranks, ..RIGHT });
    }
}

#[test]
fn readings_ignored() {
    assert_rules_misjudged(Rules {
        ranks: |ranks| ranks.iter_mut().for_each(|rank| rank.cells.fill(0)),
        ..RIGHT
    });
}

#[test]
fn readings_of_ranks_above_8_ignored() {
    assert_rules_misjudged(Rules {
        ranks: |ranks| {
            for rank in ranks.iter_mut().skip(8) {
                rank.cells.fill(0);
            }
        },
        ..RIGHT
    });
}

#[test]
fn readings_in_a_register_too() {
    assert_caught_and_misjudged(&|program, start, record, order, cells| {
        let accepted = Program::read(program).and_then(|program| {
            let mut start = start_of(&program, start)?;
            for rank in &mut start.0 {
                rank.registers[0] = rank.cells[0];
            }
            let items = read_record(record, &program)?;
            accept_items(program, start, items)
        });
        fill_bytes(accepted, order, cells)
    });
}

#[test]
fn a_missing_byte_placed_at_its_field() {
    assert_accept_caught(&|program, start, record| {
        accept(program, start, record).map_err(|refusal| {
            let missing = refusal.number == 19 && refusal.place == start.len();
            let place = if missing { 0 } else { refusal.place };
            Refusal { place, ..refusal }
        })
    });
}

/// Whether these start bytes are refused beside this program, if it can be read.
fn refusal_of_start(program: &[u8], start: &[u8]) -> Option<Refusal> {
    let program = Program::read(program).ok()?;
    start_of(&program, start).err()
}

#[test]
fn number_19_after_the_record() {
    assert_accept_caught(&|program, start, record| {
        let read = Program::read(program)?;
        read_record(record, &read)?;
        accept(program, start, record)
    });
}

#[test]
fn number_19_after_the_replay() {
    assert_accept_caught(
        &|program, start, record| match refusal_of_start(program, start) {
            Some(refusal) => accept(program, &[], record).and(Err(refusal)),
            None => accept(program, start, record),
        },
    );
}

#[test]
fn number_19_before_the_program() {
    // what the first two bytes say is enough to read a start by
    assert_accept_caught(&|program, start, record| {
        if let [ranks @ 1..=16, cells @ 1..=64, ..] = *program {
            let bare = Program::read(&[ranks, cells, 1, 1, 1, 0])?;
            start_of(&bare, start)?;
        }
        accept(program, start, record)
    });
}

#[test]
fn number_19_after_the_lists() {
    assert_caught(&|program, start, record, order, cells| {
        let Some(Refusal { number, place }) = refusal_of_start(program, start) else {
            return check_bytes(program, start, record, order, cells);
        };
        let (mut order, mut cells) = (order.to_vec(), cells.to_vec());
        match check_bytes(program, &[], record, &mut order, &mut cells) {
            short @ Answer::Refused(Refusal {
                number: 14 | 15, ..
            }) => short,
            _ => refused(number, place),
        }
    });
}

#[test]
fn start_bytes_not_read_if_there_are_no_items() {
    assert_accept_caught(&|program, start, record| {
        let start = if record == [0, 0] { &[] } else { start };
        accept(program, start, record)
    });
}

#[test]
fn the_zero_start_refused() {
    // only no bytes are taken where all is 0
    assert_accept_caught(&|program, start, record| {
        let accepted = accept(program, start, record)?;
        if !start.is_empty() && accepted.start == Start::zero(&accepted.program) {
            return Err(Refusal {
                number: 19,
                place: 0,
            });
        }
        Ok(accepted)
    });
}

#[test]
fn cells_never_accessed_told_as_0() {
    let accept_cleared = |program: &[u8], start: &[u8], record: &[u8]| {
        let mut accepted = accept(program, start, record)?;
        let accessed: Vec<_> = accepted
            .run
            .steps
            .iter()
            .filter_map(|step| step.access)
            .map(|access| (access.cell.rank, access.cell.cell))
            .collect();
        for (index, rank) in accepted.run.last.ranks.iter_mut().enumerate() {
            for (cell, value) in rank.cells.iter_mut().enumerate() {
                if !accessed.contains(&(index + 1, cell)) {
                    *value = 0;
                }
            }
        }
        Ok(accepted)
    };
    assert_caught_and_misjudged(&|program, start, record, order, cells| {
        fill_bytes(accept_cleared(program, start, record), order, cells)
    });
    let list = Functions {
        list: &|program, start, record, memory| {
            list(accept_cleared(program, start, record), memory)
        },
        ..SECOND
    };
    assert_extras_caught("listing", &Extras::between_guards(list));
}

/// Places that the search may visit.
const LIMIT: usize = 200;

#[test]
fn plain_runs_from_0() {
    // a ring, if no plain run from 0 has the trace
    let fault = assert_caught_and_misjudged(&|program, start, record, order, cells| {
        let accepted = accept(program, start, record).map(|mut accepted| {
            let zero = Start::zero(&accepted.program);
            let found = find_bounded(&accepted.program, &zero, &accepted.run, LIMIT);
            if found == Found::Nothing {
                accepted.verdict = Verdict::Ring(accepted.verdict.groups().to_vec());
            }
            accepted
        });
        fill_bytes(accepted, order, cells)
    });
    assert!(fault.ends_with("but a plain run has the trace"), "{fault}");
}

#[test]
fn a_record_refused_unless_it_is_accepted_from_0_too() {
    assert_accept_caught(&|program, start, record| {
        let accepted = accept(program, start, record)?;
        accept(program, &[], record)?;
        Ok(accepted)
    });
}

#[test]
fn last_cells_for_the_start() {
    // the replay's cells at the end taken for those at the start
    assert_caught_and_misjudged(&|program, start, record, order, cells| {
        let again = accept(program, start, record).map(|accepted| {
            let mut start = accepted.start.clone();
            for (rank, last) in start.0.iter_mut().zip(&accepted.run.last.ranks) {
                rank.cells.clone_from(&last.cells);
            }
            start_bytes(&start)
        });
        let again = again.unwrap_or_else(|_| start.to_vec());
        check_bytes(program, &again, record, order, cells)
    });
}
