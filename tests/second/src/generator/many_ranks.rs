//! Runs of programs with more than eight ranks: #105.

use super::edition::Edition;
use super::programs::{every_rank, program_of, CROWDED, SMALL, WIDE};
use super::rng::Rng;
use super::widen::Run;
use super::{executed, Profile};
use crate::limits::{MAX_CELLS, MAX_RANKS, MAX_SHORT_MAP_RANKS};
use crate::program::{Kind, Program, Transition};

/// Short runs of few groups, for the exhaustive judge: two rows of all ranks fit into them.
const SHORT: Profile = Profile {
    size: SMALL,
    items: 44,
    groups: 6,
};

/// A random small run, for the exhaustive judge.
pub fn small_run(rng: &mut Rng, edition: Edition) -> Run {
    run(rng, SHORT, edition)
}

/// A random run: mostly a short one, now and then up to all limits.
pub fn any_run(rng: &mut Rng, edition: Edition) -> Run {
    let profile = match rng.below(24) {
        0..=11 => SHORT,
        12..=17 => Profile {
            size: CROWDED,
            items: 90,
            groups: 30,
        },
        18..=22 => Profile {
            size: WIDE,
            items: 90,
            groups: 40,
        },
        _ => Profile {
            size: *rng.pick(&[CROWDED, WIDE]),
            items: 1024,
            groups: 1024,
        },
    };
    run(rng, profile, edition)
}

/// A random run of a program with more than eight ranks; one in three programs has a bar from each
/// state, so that rows come about, and one in ten has all the cells.
fn run(rng: &mut Rng, profile: Profile, edition: Edition) -> Run {
    let ranks = many(rng);
    let busy = busy(rng, ranks);
    let mut program = program_of(rng, profile.size, ranks, &busy, edition);
    if rng.chance(1, 3) {
        add_bars(rng, &mut program);
    }
    if rng.chance(1, 10) {
        program.cells = MAX_CELLS;
    }
    executed(rng, program, &busy, profile, edition)
}

/// An N above eight, often at an end of its range.
fn many(rng: &mut Rng) -> usize {
    let first = MAX_SHORT_MAP_RANKS + 1;
    let some = rng.within(first..=MAX_RANKS);
    *rng.pick(&[first, MAX_RANKS - 1, MAX_RANKS, MAX_RANKS, some, some])
}

/// The busy ranks of a run: all of them now and then, and else a few, mostly those about the eighth
/// and the last, so that accesses meet.
fn busy(rng: &mut Rng, ranks: usize) -> Vec<usize> {
    if rng.chance(1, 6) {
        return every_rank(ranks);
    }
    let some = rng.within(1..=ranks);
    let edges = [1, 8, 9, ranks - 1, ranks, ranks, some];
    let count = rng.within(2..=3);
    (0..count).map(|_| *rng.pick(&edges)).collect()
}

/// Appends a bar from each state.
pub(super) fn add_bars(rng: &mut Rng, program: &mut Program) {
    for from in 0..program.states {
        program.transitions.push(Transition {
            kind: Kind::Bar,
            from,
            to: rng.below(program.states),
            register: None,
            expressions: Vec::new(),
        });
    }
}
