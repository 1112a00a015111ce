//! Start bytes and programs that the cases of #103 are put together from.

use crate::expression::Expression;
use crate::families::parts::with_operand;
use crate::program::{Program, Transition};

/// Readings of one rank: cells with their values, cells rising.
pub type Readings<'a> = &'a [(usize, u16)];

/// The map with these cells' bits, its last byte holding those of cells 0 to 7.
pub fn map_of(cells: impl IntoIterator<Item = usize>) -> Vec<u8> {
    let mut map = vec![0; 8];
    for cell in cells {
        map[7 - cell / 8] |= 1 << (cell % 8);
    }
    map
}

/// The bytes of one rank: its map, then the values.
pub fn rank_bytes(readings: Readings) -> Vec<u8> {
    let mut bytes = map_of(readings.iter().map(|&(cell, _)| cell));
    for (_, value) in readings {
        bytes.extend([(value >> 8) as u8, *value as u8]);
    }
    bytes
}

/// The start bytes of these ranks, one after the other.
pub fn start(ranks: &[Readings]) -> Vec<u8> {
    ranks
        .iter()
        .flat_map(|readings| rank_bytes(readings))
        .collect()
}

/// The longest start bytes: 258 in each of the 64 cells of 16 ranks.
pub fn full_start() -> Vec<u8> {
    [&[255; 8][..], &[1, 2].repeat(64)].concat().repeat(16)
}

/// A program of so many ranks and cells with these transitions: R 1, Q 1, S 2.
pub fn machine(ranks: usize, cells: usize, transitions: &[Transition]) -> Program {
    Program {
        ranks,
        cells,
        registers: 1,
        queues: 1,
        states: 2,
        transitions: transitions.to_vec(),
    }
}

/// The bytes of such a program without transitions.
pub fn bare(ranks: u8, cells: u8) -> Vec<u8> {
    vec![ranks, cells, 1, 1, 1, 0]
}

/// Register 0.
pub fn register() -> Expression {
    Expression::Register(0)
}

/// A constant.
pub fn constant(value: u16) -> Expression {
    Expression::Constant(value)
}

/// The transition with register 0 in this place.
pub fn by_register(transition: Transition, place: usize) -> Transition {
    with_operand(transition, place, register())
}
