//! Records of one or two ranks with rings: far to seek, or near in a crowd of transfers that wait.

use crate::mixed::constant;
use second::expression::{Expression, Operator};
use second::program::{Kind, Program, Transition};
use second::record::{Act, Pop};

/// The cells that are stored to, loaded, and written from. Transition c stores to cell c, CELLS + c loads it, and 2 CELLS + c writes it to cell CELLS
/// of the other rank, or of the own where there is one. The last transition writes cell 0 there too, on the second queue.
const CELLS: usize = 8;
const SECOND_QUEUE: usize = 3 * CELLS;

/// A transition from state 0 to itself.
fn transition(kind: Kind, register: Option<usize>, expressions: Vec<Expression>) -> Transition {
    Transition {
        kind,
        from: 0,
        to: 0,
        register,
        expressions,
    }
}

/// A program of so many ranks, one or two.
fn program(ranks: usize) -> Program {
    let other = || {
        Expression::Binary(
            Operator::Difference,
            Box::new(constant(ranks + 1)),
            Box::new(Expression::OwnRank),
        )
    };
    let store = |cell| transition(Kind::Store, None, vec![constant(cell), Expression::OwnRank]);
    let load = |cell| transition(Kind::Load, Some(0), vec![constant(cell)]);
    let write = |cell, queue| {
        let operands = vec![constant(cell), other(), constant(CELLS), constant(queue)];
        transition(Kind::Write, None, operands)
    };
    Program {
        ranks,
        cells: CELLS + 1,
        registers: 1,
        queues: 2,
        states: 1,
        transitions: (0..CELLS)
            .map(store)
            .chain((0..CELLS).map(load))
            .chain((0..CELLS).map(|cell| write(cell, 0)))
            .chain([write(0, 1)])
            .collect(),
    }
}

/// One rank, and two.
pub fn alone() -> Program {
    program(1)
}

pub fn both() -> Program {
    program(2)
}

/// A command at a cell.
fn command(kind: Kind, rank: usize, cell: usize) -> Act {
    let first = match kind {
        Kind::Store => 0,
        Kind::Load => CELLS,
        _ => 2 * CELLS,
    };
    Act::Command {
        kind,
        rank,
        transition: first + cell,
    }
}

fn head(rank: usize) -> Pop {
    Pop::of_all(rank, 0)
}

/// So many writes in 1,024 items, each fetched when all stores are done; the stores go to so many cells in turn. Every write begins a ring along the
/// program order behind it, the last write the shortest.
fn nested(items: usize, writes: usize, cells: usize) -> Vec<Act> {
    let writes = items * writes / 1024;
    let stores = items - 3 * writes;
    let mut acts = vec![command(Kind::Write, 1, 0); writes];
    acts.extend((0..stores).map(|number| command(Kind::Store, 1, (stores - 1 - number) % cells)));
    acts.extend(vec![Act::PopA(head(1)); writes]);
    acts.extend(vec![Act::PopB(head(1)); writes]);
    acts
}

/// Rings of 425 groups and more, of 125 and more, and of 213 with two arrows into each store, for 1,024 items.
pub fn far(items: usize) -> Vec<Act> {
    nested(items, 200, 1)
}

pub fn many(items: usize) -> Vec<Act> {
    nested(items, 300, 1)
}

pub fn woven(items: usize) -> Vec<Act> {
    nested(items, 200, 2)
}

/// Writes, each behind so many stores, and each fetched when the stores behind the next one are done: rings that overlap, none within another.
pub fn linked(items: usize) -> Vec<Act> {
    const STORES: usize = 5;
    let rounds = items / (STORES + 3);
    let mut acts = Vec::new();
    for round in 0..rounds {
        acts.extend((0..STORES).map(|number| command(Kind::Store, 1, (round + number) % 2)));
        acts.push(command(Kind::Write, 1, round % 2));
        if round > 0 {
            acts.extend([Act::PopA(head(1)), Act::PopB(head(1))]);
        }
    }
    acts.extend([Act::PopA(head(1)), Act::PopB(head(1))]);
    acts
}

/// Writes on two queues by turns; one queue is fetched before a store to the cell that all read, and one behind it. So the store has an arrow from every
/// other write, and one to each of the rest, and every ring is through it.
pub fn hub(items: usize) -> Vec<Act> {
    let pairs = (items - 1) / 6;
    let second = Act::Command {
        kind: Kind::Write,
        rank: 1,
        transition: SECOND_QUEUE,
    };
    let later = Pop::of_all(1, 1);
    let mut acts = [second, command(Kind::Write, 1, 0)].repeat(pairs);
    acts.extend(vec![Act::PopA(head(1)); pairs]);
    acts.resize(items - 3 * pairs, command(Kind::Store, 1, 0));
    acts.extend(vec![Act::PopA(later); pairs]);
    acts.extend(vec![Act::PopB(head(1)); pairs]);
    acts.extend(vec![Act::PopB(later); pairs]);
    acts
}

/// Two ranks that store, load and write in no order, and transfers that wait for a while: many short rings.
pub fn crowd(items: usize) -> Vec<Act> {
    let mut acts = Vec::new();
    let mut seed: u32 = 1;
    let mut draw = |count: usize| {
        seed = seed.wrapping_mul(1_664_525).wrapping_add(1_013_904_223);
        (seed >> 16) as usize % count
    };
    // Requests and deliveries that wait, for each rank.
    let mut waiting = [[0; 2]; 2];
    let left = |waiting: &[[usize; 2]; 2]| {
        waiting
            .iter()
            .map(|[asked, fetched]| 2 * asked + fetched)
            .sum::<usize>()
    };
    while acts.len() + left(&waiting) + 3 <= items {
        let rank = draw(2);
        let cell = draw(CELLS);
        let [asked, fetched] = &mut waiting[rank];
        match draw(10) {
            0..=2 if *asked + *fetched < 12 => {
                *asked += 1;
                acts.push(command(Kind::Write, rank + 1, cell));
            }
            3..=4 => acts.push(command(Kind::Store, rank + 1, cell)),
            5..=6 => acts.push(command(Kind::Load, rank + 1, cell)),
            7 if *asked > 0 => {
                *asked -= 1;
                *fetched += 1;
                acts.push(Act::PopA(head(rank + 1)));
            }
            8 if *fetched > 0 => {
                *fetched -= 1;
                acts.push(Act::PopB(head(rank + 1)));
            }
            _ => {}
        }
    }
    for (rank, [asked, fetched]) in waiting.into_iter().enumerate() {
        acts.extend(vec![Act::PopA(head(rank + 1)); asked]);
        acts.extend(vec![Act::PopB(head(rank + 1)); asked + fetched]);
    }
    acts
}
