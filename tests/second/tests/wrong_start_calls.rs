//! The harness must catch a wrong writer of start bytes, and a wrong reader of them as a call, by
//! generated inputs and by the corpus. How start bytes are read wrongly stands in `wrong_starts`.

mod common;

use common::{assert_extras_caught, assert_extras_right, told};
use second::bytes::{fill_words, words_of};
use second::extras::{Extras, Functions, Starter, Told, DONE, SECOND};
use second::machine::Start;
use second::program::Program;
use second::start::start_bytes;
use second::start_extras::{start_read, start_written};

/// Fails unless this writer of start bytes is caught.
fn assert_writer_caught(write_start: Starter) {
    let subject = Extras::between_guards(Functions {
        write_start,
        ..SECOND
    });
    assert_extras_caught("start writer", &subject);
}

/// Fails unless this reader of start bytes is caught.
fn assert_reader_caught(read_start: Starter) {
    let subject = Extras::between_guards(Functions {
        read_start,
        ..SECOND
    });
    assert_extras_caught("start reader", &subject);
}

/// How a writer makes bytes, some of it wrong.
struct Rules {
    /// The entries of the list's bytes.
    entries: fn(&[u8]) -> Vec<u16>,
    /// How many of them are needed.
    needed: fn(&Program) -> usize,
    /// The bytes of a start.
    bytes: fn(&Start) -> Vec<u8>,
    /// Whether the list's length is looked at before the memory's.
    list_first: bool,
}

/// The rules of #103.
const RIGHT: Rules = Rules {
    entries: words_of,
    needed: |program| program.ranks * program.cells,
    bytes: start_bytes,
    list_first: true,
};

impl Rules {
    /// Writes by these rules.
    fn write(&self, program: &[u8], cells: &[u8], memory: &mut [u8]) -> Told {
        let program = match Program::read(program) {
            Ok(program) => program,
            Err(refusal) => return refusal.into(),
        };
        let mut entries = (self.entries)(cells);
        let needed = (self.needed)(&program);
        let short = entries.len() < needed;
        entries.resize(entries.len().max(program.ranks * program.cells), 0);
        let bytes = (self.bytes)(&Start::with_cells(&program, &entries));
        if short && (self.list_first || memory.len() >= bytes.len()) {
            return told(15, needed);
        }
        match memory.get_mut(..bytes.len()) {
            None => told(15, bytes.len()),
            Some(lent) => {
                lent.copy_from_slice(&bytes);
                told(DONE, bytes.len())
            }
        }
    }
}

/// Fails unless a writer with these rules is caught.
fn assert_rules_caught(rules: Rules) {
    assert_writer_caught(&|program, cells, memory| rules.write(program, cells, memory));
}

/// Fails unless a writer that makes these bytes is caught.
fn assert_bytes_caught(bytes: fn(&Start) -> Vec<u8>) {
    assert_rules_caught(Rules { bytes, ..RIGHT });
}

/// The bytes of each rank, changed.
fn by_rank(start: &Start, change: fn(&mut Vec<u8>)) -> Vec<u8> {
    let part = |rank: &second::machine::RankStart| {
        let mut bytes = start_bytes(&Start(vec![rank.clone()]));
        change(&mut bytes);
        bytes
    };
    start.0.iter().flat_map(part).collect()
}

#[test]
fn the_right_rules_are_not_caught() {
    assert_extras_right(&Extras::between_guards(Functions {
        write_start: &|program, cells, memory| RIGHT.write(program, cells, memory),
        ..SECOND
    }));
}

#[test]
fn maps_left_out_for_the_zero_start() {
    assert_bytes_caught(second::start::shortest_bytes);
}

#[test]
fn a_rank_without_readings_left_out() {
    assert_bytes_caught(|start| {
        by_rank(start, |bytes| {
            if bytes.len() == 8 {
                bytes.clear();
            }
        })
    });
}

#[test]
fn ranks_left_out_after_the_last_reading() {
    assert_bytes_caught(|start| {
        let mut bytes = start_bytes(start);
        let last = start
            .0
            .iter()
            .rposition(|rank| rank.cells != vec![0; rank.cells.len()]);
        let left_out = start.0.len() - last.map_or(1, |last| last + 1);
        bytes.truncate(bytes.len() - 8 * left_out);
        bytes
    });
}

#[test]
fn little_endian_maps_and_values() {
    assert_bytes_caught(|start| by_rank(start, |bytes| bytes[..8].reverse()));
    assert_bytes_caught(|start| {
        by_rank(start, |bytes| {
            bytes[8..].chunks_exact_mut(2).for_each(<[u8]>::reverse);
        })
    });
}

#[test]
fn map_bits_from_the_other_end() {
    assert_bytes_caught(|start| {
        by_rank(start, |bytes| {
            bytes[..8].reverse();
            bytes[..8]
                .iter_mut()
                .for_each(|byte| *byte = byte.reverse_bits());
        })
    });
    assert_bytes_caught(|start| {
        by_rank(start, |bytes| {
            bytes[..8]
                .iter_mut()
                .for_each(|byte| *byte = byte.reverse_bits());
        })
    });
}

#[test]
fn all_cells_listed() {
    assert_bytes_caught(|start| {
        let rank = |rank: &second::machine::RankStart| {
            let map = u64::MAX >> (64 - rank.cells.len());
            let values = rank.cells.iter().flat_map(|value| value.to_be_bytes());
            map.to_be_bytes()
                .into_iter()
                .chain(values)
                .collect::<Vec<u8>>()
        };
        start.0.iter().flat_map(rank).collect()
    });
}

#[test]
fn values_without_their_bits_and_bits_without_their_values() {
    assert_bytes_caught(|start| by_rank(start, |bytes| bytes.truncate(8)));
    assert_bytes_caught(|start| by_rank(start, |bytes| bytes[..8].fill(0)));
}

#[test]
fn values_cells_falling() {
    assert_bytes_caught(|start| {
        by_rank(start, |bytes| {
            bytes[8..].reverse();
            bytes[8..].chunks_exact_mut(2).for_each(<[u8]>::reverse);
        })
    });
}

#[test]
fn the_low_bytes_of_values_alone() {
    assert_bytes_caught(|start| {
        by_rank(start, |bytes| {
            bytes[8..].iter_mut().step_by(2).for_each(|high| *high = 0)
        })
    });
}

#[test]
fn ranks_falling_and_all_maps_first() {
    assert_bytes_caught(|start| {
        let mut start = start.clone();
        start.0.reverse();
        start_bytes(&start)
    });
    assert_bytes_caught(|start| {
        let maps = by_rank(start, |bytes| bytes.truncate(8));
        let values = by_rank(start, |bytes| drop(bytes.drain(..8)));
        [maps, values].concat()
    });
}

#[test]
fn ranks_above_8_left_out() {
    assert_bytes_caught(|start| {
        let ranks = start.0.iter().take(8).cloned().collect();
        start_bytes(&Start(ranks))
    });
}

#[test]
fn cells_read_low_byte_first() {
    assert_rules_caught(Rules {
        entries: |bytes| words_of(bytes).into_iter().map(u16::swap_bytes).collect(),
        ..RIGHT
    });
}

#[test]
fn an_odd_last_byte_taken_for_an_entry() {
    assert_rules_caught(Rules {
        entries: |bytes| words_of(&[bytes, &[0]].concat()),
        ..RIGHT
    });
}

#[test]
fn another_count_of_entries_needed() {
    let others: [fn(&Program) -> usize; 5] = [
        |program| 2 * program.ranks * program.cells,
        |program| program.ranks * 64,
        |program| program.cells,
        |program| program.ranks * program.cells + 1,
        |program| program.ranks * program.cells - 1,
    ];
    for needed in others {
        assert_rules_caught(Rules { needed, ..RIGHT });
    }
}

#[test]
fn the_memory_looked_at_before_the_list() {
    assert_rules_caught(Rules {
        list_first: false,
        ..RIGHT
    });
}

#[test]
fn the_list_looked_at_before_the_program() {
    assert_writer_caught(&|program, cells, memory| {
        if cells.is_empty() {
            return told(15, 1);
        }
        start_written(program, cells, memory)
    });
}

#[test]
fn a_list_longer_than_needed_refused() {
    assert_writer_caught(&|program, cells, memory| {
        let fresh = memory.to_vec();
        let done = start_written(program, cells, memory);
        if done.number == DONE
            && Program::read(program).is_ok_and(|read| cells.len() / 2 > read.ranks * read.cells)
        {
            memory.copy_from_slice(&fresh);
            return told(15, cells.len() / 2);
        }
        done
    });
}

/// A function of start bytes with one mistake in what it does with lent memory.
type Careless = fn(Starter, &[u8], &[u8], &mut [u8]) -> Told;

/// Mistakes with lent memory that writer and reader can both make.
const CARELESS: [(&str, Careless); 6] = [
    (
        "bytes written although too short",
        |right, program, given, memory| {
            let short = right(program, given, memory);
            if short.number == 15 {
                let mut longer = vec![0; 4096];
                right(program, given, &mut longer);
                let end = memory.len().min(4096);
                memory[..end].copy_from_slice(&longer[..end]);
            }
            short
        },
    ),
    (
        "bytes written on a refusal",
        |right, program, given, memory| {
            let told = right(program, given, memory);
            if told.number != DONE {
                memory.iter_mut().take(1).for_each(|byte| *byte = 0);
            }
            told
        },
    ),
    ("the rest cleared", |right, program, given, memory| {
        let before = memory.to_vec();
        let told = right(program, given, memory);
        let last = memory
            .iter()
            .zip(&before)
            .rposition(|(now, before)| now != before);
        if told.number == DONE {
            memory[last.map_or(0, |last| last + 1)..].fill(0);
        }
        told
    }),
    (
        "a length cut to 16 bits",
        |right, program, given, memory| {
            let length = memory.len() % 65_536;
            right(program, given, &mut memory[..length])
        },
    ),
    ("no value told", |right, program, given, memory| {
        told(right(program, given, memory).number, usize::MAX)
    }),
    (
        "an odd last byte cleared",
        |right, program, given, memory| {
            let told = right(program, given, memory);
            if memory.len() % 2 == 1 && told.number == DONE && told.value < memory.len() {
                memory
                    .iter_mut()
                    .last()
                    .into_iter()
                    .for_each(|byte| *byte = 0);
            }
            told
        },
    ),
];

#[test]
fn lent_memory_treated_carelessly() {
    for (what, careless) in CARELESS {
        println!("{what}");
        assert_writer_caught(&|program, cells, memory| {
            careless(&start_written, program, cells, memory)
        });
        assert_reader_caught(&|program, start, cells| careless(&start_read, program, start, cells));
    }
}

/// What the reader gives with long enough memory, if the start is right.
fn cells_of(program: &[u8], start: &[u8]) -> Option<Vec<u16>> {
    let mut cells = vec![0; 2 * 1024];
    let told = start_read(program, start, &mut cells);
    (told.number == DONE).then(|| words_of(&cells[..2 * told.value]))
}

#[test]
fn unlisted_cells_left_as_they_were() {
    assert_reader_caught(&|program, start, cells| {
        let before = words_of(cells);
        let told = start_read(program, start, cells);
        if told.number == DONE {
            let read = words_of(&cells[..2 * told.value]);
            let kept = read.iter().zip(before);
            let kept: Vec<u16> = kept
                .map(|(&read, old)| if read == 0 { old } else { read })
                .collect();
            fill_words(cells, &kept);
        }
        told
    });
}

#[test]
fn no_bytes_leave_the_list_as_it_was() {
    assert_reader_caught(&|program, start, cells| {
        if start.is_empty() {
            return start_read(program, start, &mut cells.to_vec());
        }
        start_read(program, start, cells)
    });
}

#[test]
fn cells_filled_low_byte_first() {
    assert_reader_caught(&|program, start, cells| {
        let told = start_read(program, start, cells);
        if told.number == DONE {
            cells[..2 * told.value]
                .chunks_exact_mut(2)
                .for_each(<[u8]>::reverse);
        }
        told
    });
}

#[test]
fn number_15_before_19_or_before_the_program() {
    assert_reader_caught(&|program, start, cells| {
        let entries = Program::read(program).map(|program| program.ranks * program.cells);
        match entries {
            Ok(entries) if cells.len() / 2 < entries => told(15, entries),
            _ => start_read(program, start, cells),
        }
    });
    assert_reader_caught(&|program, start, cells| {
        if cells.is_empty() {
            return told(15, 1);
        }
        start_read(program, start, cells)
    });
}

#[test]
fn lengths_counted_in_other_units() {
    // bytes told for entries
    assert_reader_caught(&|program, start, cells| {
        let right = start_read(program, start, cells);
        match right.number {
            DONE | 15 => told(right.number, 2 * right.value),
            _ => right,
        }
    });
    // a list of as many bytes as there are entries taken for long enough
    assert_reader_caught(&|program, start, cells| match cells_of(program, start) {
        Some(read) if cells.len() >= read.len() => {
            fill_words(cells, &read);
            told(DONE, read.len())
        }
        _ => start_read(program, start, cells),
    });
    // a list of 64 cells a rank asked for
    assert_reader_caught(&|program, start, cells| match cells_of(program, start) {
        Some(_) if cells.len() / 2 < 64 * usize::from(program[0]) => {
            told(15, 64 * usize::from(program[0]))
        }
        _ => start_read(program, start, cells),
    });
}

#[test]
fn cells_put_64_a_rank() {
    assert_reader_caught(&|program, start, cells| {
        let done = start_read(program, start, &mut cells.to_vec());
        let Some(read) = cells_of(program, start).filter(|_| done.number == DONE) else {
            return done;
        };
        let width = usize::from(program[1]);
        for (rank, values) in read.chunks_exact(width).enumerate() {
            if let Some(entries) = cells.get_mut(128 * rank..) {
                fill_words(entries, values);
            }
        }
        done
    });
}
