//! Random cell lists for the writer of start bytes, and random start bytes, right and damaged, for
//! the reader.

use super::aimed_starts::damage_start;
use super::readings::readings;
use super::rng::Rng;
use crate::corpus::{StartReadCase, StartWriteCase};
use crate::limits::{MAX_CELLS, MAX_RANKS};
use crate::machine::Start;
use crate::program::Program;
use crate::start::{shortest_bytes, start_bytes};

/// A random program without transitions, its N and A often at an end of a byte or of their range.
fn program(rng: &mut Rng) -> Program {
    let some_ranks = rng.within(1..=MAX_RANKS);
    let some_cells = rng.within(1..=MAX_CELLS);
    Program {
        ranks: *rng.pick(&[1, 2, 3, 8, 9, 16, some_ranks]),
        cells: *rng.pick(&[1, 2, 8, 9, 63, 64, some_cells]),
        registers: 1,
        queues: 1,
        states: 1,
        transitions: Vec::new(),
    }
}

/// A random start for a program, one in eight all 0.
fn start(rng: &mut Rng, program: &Program) -> Start {
    if rng.chance(1, 8) {
        Start::zero(program)
    } else {
        readings(rng, program)
    }
}

/// The bytes of a program, now and then damaged.
fn program_bytes(rng: &mut Rng, program: &Program) -> Vec<u8> {
    let mut bytes = program.to_bytes();
    match rng.below(24) {
        0 => bytes.truncate(rng.below(bytes.len())),
        1 => bytes.push(0),
        2 => bytes[rng.below(2)] = *rng.pick(&[0, 17, 65]),
        _ => {}
    }
    bytes
}

/// The case of this number under this seed for the writer: mostly a list that is long enough.
pub fn start_write_case(seed: u64, index: u64) -> StartWriteCase {
    let rng = &mut Rng::new(!seed ^ 1, index);
    let program = program(rng);
    let start = start(rng, &program);
    let mut cells = start.cells();
    match rng.below(8) {
        0 => cells.truncate(rng.below(cells.len())),
        1 => cells.truncate(cells.len() - 1),
        2..=4 => cells.extend([rng.value(), 1, 65_535]),
        _ => {}
    }
    let needed = start_bytes(&start).len();
    let bytes = *rng.pick(&[0, needed - 1, needed, needed, needed + 1, needed + 9]);
    StartWriteCase::answered(String::new(), program_bytes(rng, &program), cells, bytes)
}

/// The case of this number under this seed for the reader; half of the starts are damaged.
pub fn start_read_case(seed: u64, index: u64) -> StartReadCase {
    let rng = &mut Rng::new(!seed ^ 2, index);
    let program = program(rng);
    let start = start(rng, &program);
    let mut bytes = start_bytes(&start);
    if rng.chance(1, 4) {
        bytes = shortest_bytes(&start);
    }
    if rng.chance(1, 2) {
        damage_start(rng, &program, &start, &mut bytes);
    }
    let entries = program.ranks * program.cells;
    let entries = *rng.pick(&[0, entries - 1, entries, entries, entries + 1]);
    StartReadCase::answered(String::new(), program_bytes(rng, &program), bytes, entries)
}
