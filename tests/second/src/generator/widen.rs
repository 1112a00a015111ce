//! More transitions than a run needs, so that it takes numbers of one byte and of two: #107.

use super::expressions::{Scope, Sums};
use super::programs::{every_rank, transition};
use super::rng::Rng;
use crate::limits::MAX_TRANSITIONS;
use crate::machine::Start;
use crate::program::{Program, Transition};
use crate::record::{Act, Item};

/// How many transitions widened programs have: about one byte's count, about one byte's number, and
/// up to the limit.
const SIZES: [usize; 14] = [
    128, 129, 200, 255, 256, 257, 258, 259, 300, 399, 400, 400, 400, 400,
];
/// Numbers that a run's own transitions get first.
const EDGES: [usize; 6] = [256, 255, 257, 0, 128, 127];
/// The most operators in an expression that only fills up.
const OPERATORS: usize = 1;

/// A run: a program, a start, and items that are accepted from it.
pub type Run = (Program, Start, Vec<Item>);

/// The run, one in six times of a widened program.
pub fn now_and_then(rng: &mut Rng, run: Run) -> Run {
    if rng.chance(1, 6) {
        widened(rng, run)
    } else {
        run
    }
}

/// The same run of a program that has more transitions, each of the old ones at some places.
pub fn widened(rng: &mut Rng, (program, start, mut items): Run) -> Run {
    let some = rng.within(program.transitions.len()..=MAX_TRANSITIONS);
    let size = *rng.pick(&[&SIZES[..], &[some]].concat());
    let size = size.max(program.transitions.len());
    let homes = homes(rng, program.transitions.len(), size);
    for item in &mut items {
        if let Act::Command { transition, .. } = &mut item.act {
            *transition = home(rng, &homes[*transition]);
        }
    }
    let transitions = filled(rng, &program, &homes, size);
    let program = Program {
        transitions,
        ..program
    };
    (program, start, items)
}

/// One of a transition's new numbers, often the first.
fn home(rng: &mut Rng, homes: &[usize]) -> usize {
    if rng.chance(1, 3) {
        homes[0]
    } else {
        *rng.pick(homes)
    }
}

/// New numbers for each of so many transitions: one for each, the edges and the last number first,
/// and then about half of the numbers that are left.
fn homes(rng: &mut Rng, transitions: usize, size: usize) -> Vec<Vec<usize>> {
    let mut homes = vec![Vec::new(); transitions];
    if transitions == 0 {
        return homes;
    }
    let mut order: Vec<usize> = (0..transitions).collect();
    shuffle(rng, &mut order);
    for (place, number) in numbers(rng, size).into_iter().enumerate() {
        match order.get(place) {
            Some(&transition) => homes[transition].push(number),
            None if rng.chance(1, 2) => some_homes(rng, &mut homes).push(number),
            None => {}
        }
    }
    homes
}

/// The new numbers of some transition.
fn some_homes<'a>(rng: &mut Rng, homes: &'a mut [Vec<usize>]) -> &'a mut Vec<usize> {
    let transition = rng.below(homes.len());
    &mut homes[transition]
}

/// All numbers of a program of this size: the last and the edges, then the others mixed.
fn numbers(rng: &mut Rng, size: usize) -> Vec<usize> {
    let mut numbers = vec![size - 1];
    numbers.extend(EDGES.into_iter().filter(|&edge| edge < size - 1));
    let mut others: Vec<usize> = (0..size).filter(|other| !numbers.contains(other)).collect();
    shuffle(rng, &mut others);
    numbers.extend(others);
    numbers
}

/// Mixes a list.
fn shuffle(rng: &mut Rng, list: &mut [usize]) {
    for end in (1..list.len()).rev() {
        list.swap(end, rng.below(end + 1));
    }
}

/// The widened program's transitions: the old ones at their new numbers, and fresh ones elsewhere.
fn filled(rng: &mut Rng, program: &Program, homes: &[Vec<usize>], size: usize) -> Vec<Transition> {
    let mut placed: Vec<Option<&Transition>> = vec![None; size];
    for (old, numbers) in program.transitions.iter().zip(homes) {
        for &number in numbers {
            placed[number] = Some(old);
        }
    }
    let busy = &every_rank(program.ranks);
    let scope = Scope {
        program,
        busy,
        registers: &[],
        sums: Sums::Edged,
    };
    let mut fill = |(number, old): (usize, Option<&Transition>)| match old {
        Some(old) => old.clone(),
        None => transition(rng, scope, number, OPERATORS),
    };
    placed.into_iter().enumerate().map(&mut fill).collect()
}
