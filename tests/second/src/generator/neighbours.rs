//! Runs in which transfers of one queue overtake each other: #108.

use super::edition::Edition;
use super::executions::Pace;
use super::many_ranks::add_bars;
use super::programs::{every_rank, program_of, Size, CROWDED, MIDDLE, SMALL};
use super::rng::Rng;
use super::widen::Run;
use super::{executed_at, paced, Profile};
use crate::expression::Expression;
use crate::limits::MAX_RANKS;
use crate::machine::Machine;
use crate::program::{Kind, Program, Transition};

/// Short runs of few groups, for the exhaustive judge.
const SHORT: Profile = Profile {
    size: SMALL,
    items: 20,
    groups: 6,
};

/// A random small run, for the exhaustive judge.
pub fn small_run(rng: &mut Rng, edition: Edition) -> Run {
    run(rng, SHORT, edition)
}

/// A random run: mostly a short one, now and then up to the limit of items.
pub fn any_run(rng: &mut Rng, edition: Edition) -> Run {
    let profile = match rng.below(24) {
        0..=15 => SHORT,
        16..=19 => Profile {
            size: MIDDLE,
            items: 40,
            groups: 24,
        },
        20..=22 => Profile {
            size: CROWDED,
            items: 60,
            groups: 30,
        },
        _ => Profile {
            size: CROWDED,
            items: 1024,
            groups: 1024,
        },
    };
    run(rng, profile, edition)
}

/// A random run, short or long, whose trace a plain run has: a plain run, loosened.
pub fn loosened_run(rng: &mut Rng, edition: Edition) -> Run {
    let profile = Profile {
        size: *rng.pick(&[MIDDLE, CROWDED]),
        items: *rng.pick(&[60, 1024]),
        groups: 400,
    };
    let mut pace = paced(rng, profile);
    pace.at_once = true;
    run_at(rng, profile.size, pace, edition)
}

/// A random run of a profile.
fn run(rng: &mut Rng, profile: Profile, edition: Edition) -> Run {
    let pace = paced(rng, profile);
    run_at(rng, profile.size, pace, edition)
}

/// A random run of a program with many transfers, whose pops name remote ranks now and then. A
/// plain run that is loosened must have all of them named; names are taken away afterwards. Pops
/// come seldom while there are commands, so that queues fill.
fn run_at(rng: &mut Rng, size: Size, mut pace: Pace, edition: Edition) -> Run {
    let ranks = *rng.pick(&[1, 2, 2, 3, 3, 3, 3, 4, 9, MAX_RANKS]);
    let remote = remote(rng, ranks);
    let mut program = program_of(rng, size, ranks, &remote, edition);
    add_transfers(rng, &mut program, &remote);
    if rng.chance(1, 4) {
        add_bars(rng, &mut program);
    }
    let busy = busy(rng, &remote);
    (pace.command, pace.popa, pace.popb) = (6, rng.below(3), rng.below(3));
    let often = rng.within(1..=4);
    pace.naming = if pace.at_once { 4 } else { often };
    let mut run = executed_at(rng, program, &busy, pace, edition);
    thin(rng, &mut run);
    run
}

/// The ranks that transfers go to and come from: all if they are few, and else the first, a middle
/// one and the last.
fn remote(rng: &mut Rng, ranks: usize) -> Vec<usize> {
    if ranks <= 4 {
        every_rank(ranks)
    } else {
        vec![1, rng.within(2..=ranks - 1), ranks]
    }
}

/// The ranks that take commands: often one or two of them, so that these have several transfers.
fn busy(rng: &mut Rng, ranks: &[usize]) -> Vec<usize> {
    let (one, other) = (*rng.pick(ranks), *rng.pick(ranks));
    match rng.below(3) {
        0 => vec![one],
        1 => vec![one, other],
        _ => ranks.to_vec(),
    }
}

/// Appends three transfers from each state, most on queue 0, to and from these ranks.
fn add_transfers(rng: &mut Rng, program: &mut Program, ranks: &[usize]) {
    for number in 0..3 * program.states {
        let own = rng.below(program.cells);
        let rank = *rng.pick(ranks);
        let remote = rng.below(program.cells);
        let queue = rng.below(program.queues).min(rng.below(program.queues));
        let constant = |number| Expression::Constant(number as u16);
        program.transitions.push(Transition {
            kind: *rng.pick(&[Kind::Read, Kind::Write]),
            from: number / 3,
            to: rng.below(program.states),
            register: None,
            expressions: [own, rank, remote, queue].map(constant).into(),
        });
    }
}

/// Takes names away from pops that take the oldest of all entries, so many in four.
pub fn thin(rng: &mut Rng, run: &mut Run) {
    let in_four = *rng.pick(&[0, 2, 4]);
    rename(run, |named, oldest| {
        let without = named == oldest && rng.chance(in_four, 4);
        named.filter(|_| !without)
    });
}

/// Has every pop name the remote rank of the entry that it takes.
pub fn name_all(run: &mut Run) {
    rename(run, Option::or);
}

/// Has each pop name what is made of the rank that it names and that of the oldest of all entries.
fn rename(
    (program, start, items): &mut Run,
    mut name: impl FnMut(Option<usize>, Option<usize>) -> Option<usize>,
) {
    let mut machine = Machine::new(program, start);
    for item in items {
        let oldest = machine.remotes_waiting(item.act).first().copied();
        if let Some(pop) = item.act.pop_mut() {
            pop.remote = name(pop.remote, oldest);
        }
        machine
            .step(program, item)
            .expect("a pop takes the same entry with its name and without");
    }
}
