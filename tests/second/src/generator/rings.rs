//! Runs with several rings: #111. They are braided from circles of ranks and from fans behind a row,
//! one after the other, so that rings have several ranks and lengths, share groups, are as long as
//! each other, and lie far from group 0.

use super::edition::Edition;
use super::executions::give_values;
use super::group_count;
use super::programs::every_rank;
use super::readings::readings;
use super::rng::Rng;
use super::widen::Run;
use crate::families::script::Script;
use crate::machine::Start;
use crate::replay::replay;

/// The most groups of a small run.
const FEW: usize = 7;
/// The most ranks that have more commands than bars.
const BUSY: usize = 5;

/// A random small run, for the exhaustive judge.
pub fn small_run(rng: &mut Rng, _: Edition) -> Run {
    loop {
        let patterns = rng.within(1..=2);
        let run = braided(rng, patterns);
        if group_count(&run.0, &run.2) <= FEW {
            return run;
        }
    }
}

/// A random run: mostly of a few dozen groups, now and then near the limit of items.
pub fn any_run(rng: &mut Rng, edition: Edition) -> Run {
    let most = match rng.below(24) {
        0..=5 => return small_run(rng, edition),
        6..=15 => 3,
        16..=21 => 6,
        _ => 20,
    };
    let patterns = rng.within(1..=most);
    braided(rng, patterns)
}

/// A run of so many circles and fans, every other item with its value, perhaps from readings, which
/// change no arrow. What waits is carried now and then between them.
fn braided(rng: &mut Rng, patterns: usize) -> Run {
    let ranks: usize = *rng.pick(&[1, 2, 3, 3, 4, 4, 8, 9, 16]);
    let first = rng.below(ranks.saturating_sub(BUSY) + 1);
    let busy = &every_rank(ranks)[first..ranks.min(first + BUSY)];
    let mut words = String::new();
    for _ in 0..patterns {
        words += &if rng.chance(1, 2) {
            circle(rng, busy)
        } else {
            fan(rng, busy)
        };
        words += if rng.chance(2, 3) { "c " } else { "" };
    }
    let Script {
        program, mut items, ..
    } = Script::with_ranks(ranks, &(words + "c"));
    let start = if rng.chance(1, 3) {
        readings(rng, &program)
    } else {
        Start::zero(&program)
    };
    let run = replay(&program, &start, &items).expect("a braid is accepted");
    give_values(rng, &mut items, &run.steps);
    (program, start, items)
}

/// Some of the busy ranks, rather many than one, in any order.
fn some_ranks(rng: &mut Rng, busy: &[usize]) -> Vec<usize> {
    let mut ranks = busy.to_vec();
    for last in (1..ranks.len()).rev() {
        ranks.swap(last, rng.below(last + 1));
    }
    let [one, other] = [0; 2].map(|_: u8| rng.within(1..=ranks.len()));
    ranks.truncate(one.max(other));
    ranks
}

/// Each of some ranks writes to a cell of the next and then loads its own: a ring through all of
/// them, if they load before the deliveries. Now and then they store instead, or in cell 0, which is
/// written from, and meet at the cells of other circles.
fn circle(rng: &mut Rng, busy: &[usize]) -> String {
    let (ranks, cell) = (some_ranks(rng, busy), rng.within(1..=3));
    let last = *rng.pick(&["l", "l", "l", "s"]);
    let mut strands = Vec::new();
    for (place, &rank) in ranks.iter().enumerate() {
        let next = ranks[(place + 1) % ranks.len()];
        let access = if rng.chance(1, 8) { 0 } else { cell };
        strands.push(vec![
            format!("w{rank}.0>{next}.{cell} "),
            format!("i{rank}*{} ", rng.below(3)),
            format!("{last}{rank}.{access} "),
        ]);
    }
    woven(rng, strands)
}

/// A rank writes to a cell; behind a row several ranks load or read that cell: rings that part behind
/// the row, if they do so before the delivery.
fn fan(rng: &mut Rng, busy: &[usize]) -> String {
    let (writer, place, cell) = (*rng.pick(busy), *rng.pick(busy), rng.within(1..=3));
    let begin = format!("w{writer}.0>{place}.{cell} i{writer}*{} b ", rng.below(3));
    let bound = rng.within(1..=3);
    let mut strands = Vec::new();
    for rank in some_ranks(rng, busy) {
        let look = if rank == place {
            format!("l{rank}.{cell} ")
        } else {
            format!("r{rank}.4<{place}.{cell} n ")
        };
        strands.push(vec![format!("i{rank}*{} ", rng.below(bound)), look]);
    }
    begin + &woven(rng, strands)
}

/// What stands in the strands, each in its order, mixed at random.
fn woven(rng: &mut Rng, mut strands: Vec<Vec<String>>) -> String {
    let mut words = String::new();
    while !strands.is_empty() {
        let drawn = rng.below(strands.len());
        words += &strands[drawn].remove(0);
        strands.retain(|strand| !strand.is_empty());
    }
    words
}
