//! Starts with a reading of one rank only, and that not the first: read by the check, and written and
//! read by the calls.

use super::{accepted, refused};
use crate::corpus::Case;
use crate::families::parts::{at, command, giving, load};
use crate::families::row::{own_order, Row};
use crate::families::starts::build::{machine, start, Readings};
use crate::families::starts::lists::both_ways_of;
use crate::program::Kind;

/// The numbers of ranks, and the one of them with a reading.
const PLACES: [(usize, usize); 4] = [(2, 2), (3, 2), (16, 2), (16, 16)];

/// The readings of each rank: 600 in cell 1 of one rank only.
fn readings(ranks: usize, rank: usize) -> Vec<Readings<'static>> {
    let mut readings: Vec<Readings> = vec![&[]; ranks];
    readings[rank - 1] = &[(1, 600)];
    readings
}

/// The name of a place.
fn named((ranks, rank): (usize, usize)) -> String {
    format!("only-rank-{rank}-of-{ranks}")
}

/// The rank loads its reading; from no bytes, and for the rank before, that is another value.
pub fn rows() -> Vec<Row> {
    let row = |(ranks, rank): (usize, usize)| {
        let program = machine(ranks, 2, &[load(1)]);
        let loaded = |rank| giving(at(command(Kind::Load, rank, 0), 1), 600);
        let what = named((ranks, rank));
        let values = [((rank, 1), 600)];
        let bytes = || start(&readings(ranks, rank));
        [
            accepted(&what, &program, &[loaded(rank)], own_order(1), &values).from_start(bytes()),
            refused(
                &format!("{what}-from-no-bytes"),
                &program,
                &[loaded(rank)],
                11,
                0,
            ),
            refused(
                &format!("{what}-before-it"),
                &program,
                &[loaded(rank - 1)],
                11,
                0,
            )
            .from_start(bytes()),
        ]
    };
    PLACES.into_iter().flat_map(row).collect()
}

/// The same starts written and read by the calls, with lengths that fit, longer ones and shorter.
pub fn calls() -> Result<Vec<Case>, String> {
    let calls = PLACES.into_iter().flat_map(|(ranks, rank)| {
        let readings = readings(ranks, rank);
        both_ways_of((&named((ranks, rank)), (ranks, 2), &readings))
    });
    calls.collect()
}
