//! Seeded, repeatable inputs: random programs, executions of them, and damage.

pub mod aimed;
pub mod aimed_neighbours;
pub mod aimed_ranks;
pub mod aimed_starts;
pub mod aimed_sums;
pub mod damage;
pub mod edges;
pub mod edition;
pub mod executions;
pub mod expressions;
pub mod loosen;
pub mod many_ranks;
pub mod neighbours;
pub mod programs;
pub mod readings;
pub mod rings;
pub mod rng;
pub mod slips;
pub mod starts;
pub mod widen;

use crate::families::extremes::extremes;
use crate::limits::{MAX_SHORT_COUNT, MAX_SHORT_MAP_RANKS};
use crate::machine::Start;
use crate::program::{Kind, Program};
use crate::record::{read_record, record_bytes, Item};
use crate::replay::replay;
use crate::start::{shortest_bytes, start_bytes};
use edition::Edition;
use executions::{execution, pace, Pace};
use programs::{every_rank, Size, CROWDED, MIDDLE, SMALL, WIDE};
use rng::Rng;
use widen::{now_and_then, Run};

/// One input of the whole check.
#[derive(Debug, Clone, PartialEq, Eq)]
pub struct Input {
    /// The program bytes.
    pub program: Vec<u8>,
    /// The start bytes.
    pub start: Vec<u8>,
    /// The record bytes.
    pub record: Vec<u8>,
    /// The bytes of the order list.
    pub order_bytes: usize,
    /// The bytes of the cell list.
    pub cell_bytes: usize,
}

/// A profile of random runs: the program's size and the record's.
#[derive(Debug, Clone, Copy)]
struct Profile {
    /// The largest program.
    size: Size,
    /// The most items.
    items: usize,
    /// The most groups.
    groups: usize,
}

/// Small runs, for the exhaustive judge: at most 16 items in at most 7 groups.
const SMALL_PROFILE: Profile = Profile {
    size: SMALL,
    items: 16,
    groups: 7,
};

/// A random small run, for the exhaustive judge.
pub fn small_run(rng: &mut Rng, edition: Edition) -> Run {
    run(rng, SMALL_PROFILE, edition)
}

/// A random program and an execution of it.
fn run(rng: &mut Rng, profile: Profile, edition: Edition) -> Run {
    let program = programs::program(rng, profile.size, edition);
    let busy = every_rank(program.ranks);
    executed(rng, program, &busy, profile, edition)
}

/// The program with an execution of it, in which these ranks are busy.
fn executed(
    rng: &mut Rng,
    program: Program,
    busy: &[usize],
    profile: Profile,
    edition: Edition,
) -> Run {
    let pace = paced(rng, profile);
    executed_at(rng, program, busy, pace, edition)
}

/// A random pace for a profile, one in eight that of plain runs.
fn paced(rng: &mut Rng, profile: Profile) -> Pace {
    let groups = rng
        .within(0..=profile.groups)
        .max(rng.within(0..=profile.groups));
    let mut pace = pace(rng, profile.items, groups);
    pace.at_once = rng.chance(1, 8);
    pace
}

/// The program with an execution of it at this pace, from readings now and then; a plain run is
/// loosened.
fn executed_at(
    rng: &mut Rng,
    mut program: Program,
    busy: &[usize],
    pace: Pace,
    edition: Edition,
) -> Run {
    let start = if edition >= Edition::Before111 {
        readings::now_and_then(rng, &mut program)
    } else {
        Start::zero(&program)
    };
    let mut items = execution(rng, &program, busy, &start, pace);
    if pace.at_once {
        loosen::loosen(rng, &program, &mut items);
    }
    (program, start, items)
}

/// A long random run whose trace a plain run has: a plain run, loosened.
pub fn long_loosened_run(rng: &mut Rng, edition: Edition) -> Run {
    let size = *rng.pick(&[CROWDED, WIDE]);
    let program = programs::program(rng, size, edition);
    let mut pace = pace(rng, 1024, 1024);
    pace.at_once = true;
    let busy = every_rank(program.ranks);
    executed_at(rng, program, &busy, pace, edition)
}

/// A random run of middle length, at most 40 items, with any delays.
pub fn middle_run(rng: &mut Rng, edition: Edition) -> Run {
    let profile = Profile {
        size: MIDDLE,
        items: 40,
        groups: 24,
    };
    run(rng, profile, edition)
}

/// A random profile: mostly small runs, now and then up to all limits.
fn profile(rng: &mut Rng) -> Profile {
    match rng.below(100) {
        0..=59 => SMALL_PROFILE,
        60..=69 => Profile {
            size: MIDDLE,
            items: 40,
            groups: 24,
        },
        70..=79 => Profile {
            size: CROWDED,
            items: 60,
            groups: 30,
        },
        80..=97 => Profile {
            size: WIDE,
            items: 60,
            groups: 40,
        },
        98 => Profile {
            size: CROWDED,
            items: 1024,
            groups: 1024,
        },
        _ => Profile {
            size: WIDE,
            items: 1024,
            groups: 1024,
        },
    }
}

/// How many groups the items make, a row counting once.
pub fn group_count(program: &Program, items: &[Item]) -> usize {
    let of_kind = |kind: Kind| items.iter().filter(|item| item.act.kind() == kind).count();
    let commands = items
        .iter()
        .filter(|item| item.act.transition().is_some())
        .count();
    let bars = of_kind(Kind::Bar);
    commands - bars + bars / program.ranks
}

/// An extreme, if one is drawn and its program and record can be read.
fn drawn_extreme(rng: &mut Rng) -> Option<Run> {
    if !rng.chance(1, 150) {
        return None;
    }
    let extremes = extremes();
    let extreme = rng.pick(&extremes);
    let program = Program::read(&extreme.program).ok()?;
    let items = read_record(&extreme.record, &program).ok()?;
    let start = Start::zero(&program);
    Some((program, start, items))
}

/// A run for an input: mostly a random one, now and then an extreme.
fn any_run(rng: &mut Rng, edition: Edition) -> Run {
    if let Some((program, start, items)) = drawn_extreme(rng) {
        return (edition.evaluated(program), start, items);
    }
    let profile = profile(rng);
    run(rng, profile, edition)
}

/// The input for a run, with lists that are long enough or a little longer.
fn roomy(rng: &mut Rng, (program, start, items): &Run, edition: Edition) -> Input {
    let written_out = edition >= Edition::Before111 && rng.chance(1, 5);
    Input {
        program: program.to_bytes(),
        start: if written_out {
            start_bytes(start)
        } else {
            shortest_bytes(start)
        },
        record: record_bytes(items),
        order_bytes: 2 * group_count(program, items) + rng.below(6),
        cell_bytes: 2 * program.ranks * program.cells + rng.below(6),
    }
}

/// The small input of this number under this seed, for the exhaustive judge; none is damaged.
pub fn small_input(seed: u64, index: u64) -> Input {
    let mut rng = Rng::new(seed, index);
    let run = later_run(&mut rng, SMALL_RUNS, Edition::Today);
    roomy(&mut rng, &run, Edition::Today)
}

/// The accepted input of this number under this seed, of any size; none is damaged.
pub fn accepted_input(seed: u64, index: u64) -> Input {
    let mut rng = Rng::new(seed, index);
    loop {
        let run = later_run(&mut rng, ANY_RUNS, Edition::Today);
        if replay(&run.0, &run.1, &run.2).is_ok() {
            return roomy(&mut rng, &run, Edition::Today);
        }
    }
}

/// A way to make a random run.
pub type Maker = fn(&mut Rng, Edition) -> Run;

/// The ways to make a run of any request.
#[derive(Debug, Clone, Copy)]
pub struct Makers {
    /// As document 01 has them.
    few_ranks: Maker,
    /// Of more than eight ranks: #105.
    many_ranks: Maker,
    /// With transfers that overtake each other: #108.
    neighbours: Maker,
    /// With several rings: #111.
    rings: Maker,
}

/// Small runs, for the exhaustive judge.
pub const SMALL_RUNS: Makers = Makers {
    few_ranks: small_run,
    many_ranks: many_ranks::small_run,
    neighbours: neighbours::small_run,
    rings: rings::small_run,
};
/// Runs of any size.
const ANY_RUNS: Makers = Makers {
    few_ranks: any_run,
    many_ranks: many_ranks::any_run,
    neighbours: neighbours::any_run,
    rings: rings::any_run,
};

/// A run of one of the makings: one in six with several rings, and of the others four in twenty of
/// more than eight ranks, and six with transfers that overtake each other; now and then widened.
pub fn later_run(rng: &mut Rng, makers: Makers, edition: Edition) -> Run {
    let ringed = edition == Edition::Today && rng.chance(1, 6);
    let maker = match rng.below(20) {
        _ if ringed => makers.rings,
        0..=3 => makers.many_ranks,
        4..=9 => makers.neighbours,
        _ => makers.few_ranks,
    };
    let run = maker(rng, edition);
    now_and_then(rng, run)
}

/// The input of this number under this seed; half of them are damaged.
pub fn input(seed: u64, index: u64) -> Input {
    made(seed, index, Edition::Today)
}

/// The input of this number under this seed as before #103.
pub fn input_before_103(seed: u64, index: u64) -> Input {
    made(seed, index, Edition::Before103)
}

/// The input of this number under this seed as document 01 alone has them.
pub fn input_of_document_01(seed: u64, index: u64) -> Input {
    made(seed, index, Edition::Document01)
}

/// The input of this number under this seed.
fn made(seed: u64, index: u64, edition: Edition) -> Input {
    let mut rng = Rng::new(seed, index);
    let mut run = match edition {
        Edition::Document01 => any_run(&mut rng, edition),
        _ => later_run(&mut rng, ANY_RUNS, edition),
    };
    let mut input = roomy(&mut rng, &run, edition);
    if edition >= Edition::Before103 && rng.chance(1, 8) {
        aimed_sums::damage(&mut rng, &mut run, &mut input);
    }
    if rng.chance(1, 2) {
        let times = *rng.pick(&[1, 1, 1, 2]);
        for _ in 0..times {
            damage::damage(&mut rng, &mut run, &mut input);
        }
    }
    if edition >= Edition::Before103 {
        aimed_damage(&mut rng, &mut run, &mut input);
    }
    let without_start = input.start.is_empty();
    if edition >= Edition::Before111 && rng.chance(1, if without_start { 16 } else { 4 }) {
        aimed_starts::damage(&mut rng, &run, &mut input);
    }
    input
}

/// Damages an input now and then in ways aimed at #107, #105 and #108.
fn aimed_damage(rng: &mut Rng, run: &mut Run, input: &mut Input) {
    let long = run.0.transitions.len() > MAX_SHORT_COUNT;
    if is_aimed(rng, long) {
        aimed::damage(rng, run, input);
    }
    let many = run.0.ranks > MAX_SHORT_MAP_RANKS;
    if is_aimed(rng, many) {
        aimed_ranks::damage(rng, run, input);
    }
    let named = run.2.iter().any(names_remote);
    if is_aimed(rng, named) {
        aimed_neighbours::damage(rng, run, input);
    }
}

/// Whether an item is a pop that names a remote rank.
pub fn names_remote(item: &Item) -> bool {
    item.act.pop().is_some_and(|pop| pop.remote.is_some())
}

/// Whether damage is aimed at what a later request brings: every other time where the input is one
/// that only this request allows, and else one in sixteen times.
fn is_aimed(rng: &mut Rng, allowed_by_it: bool) -> bool {
    rng.chance(1, if allowed_by_it { 2 } else { 16 })
}
