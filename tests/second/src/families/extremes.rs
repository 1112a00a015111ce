//! Extreme inputs: the limits of document 01 and the long ways round.

use super::base::{join, record_of};
use crate::machine::{Machine, Start};
use crate::program::{Kind, Program};
use crate::record::{record_bytes, Act, Item, Pop};

/// An extreme input: its name, program and record.
pub struct Extreme {
    /// The case's name.
    pub name: &'static str,
    /// The program bytes.
    pub program: Vec<u8>,
    /// The record bytes.
    pub record: Vec<u8>,
}

/// A constant as an expression's bytes.
fn constant(value: u8) -> [u8; 3] {
    [0, 0, value]
}

/// A program with this header, up to S, and these transitions.
fn program(header: [u8; 5], transitions: &[Vec<u8>]) -> Vec<u8> {
    let count = transitions.len() as u8;
    [header.to_vec(), vec![count], transitions.concat()].concat()
}

/// A transfer's transition from state 0 to 0.
fn transfer(kind: u8, own: u8, rank: u8, remote: u8, queue: u8) -> Vec<u8> {
    let fields = [
        constant(own),
        constant(rank),
        constant(remote),
        constant(queue),
    ];
    join(&[30, kind, 0, 0], &fields.concat())
}

/// A store of a constant from state 0 to 0.
fn store(cell: u8, value: u8) -> Vec<u8> {
    join(&[6, 2, 0, 0], &[constant(cell), constant(value)].concat())
}

/// A load of a cell into register 0 from state 0 to 0.
fn load(cell: u8) -> Vec<u8> {
    join(&[3, 1, 0, 0, 0], &constant(cell))
}

/// An assign of 1 to register 0 from state 0 to 0.
fn assign() -> Vec<u8> {
    join(&[3, 3, 0, 0, 0], &constant(1))
}

/// The record of these acts, placed and valued as the replay says.
fn acted(program: &[u8], acts: &[Act]) -> Vec<u8> {
    let program = Program::read(program).expect("an extreme program is readable");
    let mut machine = Machine::new(&program, &Start::zero(&program));
    let mut items = Vec::new();
    for &act in acts {
        let step = machine
            .perform(&program, act)
            .expect("an extreme act is taken");
        let place = step.access.map(|access| access.cell);
        let value = step.access.map(|access| access.value);
        items.push(Item { act, place, value });
    }
    record_bytes(&items)
}

/// A command of a rank.
fn command(kind: Kind, rank: usize, transition: usize) -> Act {
    Act::Command {
        kind,
        rank,
        transition,
    }
}

/// An extreme of a program and acts.
fn extreme(name: &'static str, program: Vec<u8>, acts: &[Act]) -> Extreme {
    let record = acted(&program, acts);
    Extreme {
        name,
        program,
        record,
    }
}

/// All extremes.
pub fn extremes() -> Vec<Extreme> {
    let mut all = counts();
    all.extend([
        long_ring(),
        long_ring_of_ranks(),
        rows_of_8(),
        one_cell_for_all(),
    ]);
    all.extend([
        all_delayed(),
        readers_then_writer(),
        back_and_forth(),
        many_transitions(),
    ]);
    all.extend([largest_expressions(), right_leaning(), all_cells()]);
    all
}

/// Run m of document 01, and the empty inputs.
fn counts() -> Vec<Extreme> {
    let assigns = program([1, 1, 1, 1, 1], &[assign()]);
    let items = |count: usize| record_of(count as u16, &[3, 3, 1, 0].repeat(count));
    let of = |name, program: &[u8], record| Extreme {
        name,
        program: program.to_vec(),
        record,
    };
    vec![
        of("run-m-1024", &assigns, items(1024)),
        of("run-m-1025", &assigns, items(1025)),
        of("items-1023", &assigns, items(1023)),
        of("empty-program", &[], items(1)),
        of("empty-record", &assigns, Vec::new()),
        of("empty-both", &[], Vec::new()),
        of("smallest", &[1, 1, 1, 1, 1, 0], vec![0, 0]),
    ]
}

/// A write whose fetch comes after all other commands: one ring of 1,022 groups.
fn long_ring() -> Extreme {
    let code = program(
        [1, 2, 1, 1, 1],
        &[transfer(6, 0, 1, 1, 0), assign(), store(0, 7)],
    );
    let mut acts = vec![command(Kind::Write, 1, 0)];
    acts.extend([command(Kind::Assign, 1, 1); 1020]);
    acts.push(command(Kind::Store, 1, 2));
    acts.extend([Act::PopA(Pop::of_all(1, 0)), Act::PopB(Pop::of_all(1, 0))]);
    extreme("long-ring", code, &acts)
}

/// A ring through all eight ranks: each stores to the next rank by a late write and then loads.
fn long_ring_of_ranks() -> Extreme {
    let mut transitions: Vec<Vec<u8>> = (1..=8).map(|rank| transfer(6, 0, rank, 1, 0)).collect();
    transitions.extend([store(0, 5), load(1)]);
    let code = program([8, 2, 1, 1, 1], &transitions);
    let mut acts = Vec::new();
    for rank in 1..=8 {
        acts.push(command(Kind::Store, rank, 8));
        acts.push(command(Kind::Write, rank, rank % 8));
        acts.push(command(Kind::Load, rank, 9));
    }
    acts.extend((1..=8).map(|rank| Act::PopA(Pop::of_all(rank, 0))));
    acts.extend((1..=8).map(|rank| Act::PopB(Pop::of_all(rank, 0))));
    extreme("ring-of-8-ranks", code, &acts)
}

/// 128 barrier rows of eight ranks.
fn rows_of_8() -> Extreme {
    let code = program([8, 1, 1, 1, 1], &[vec![0, 9, 0, 0]]);
    let row: Vec<Act> = (1..=8).map(|rank| command(Kind::Bar, rank, 0)).collect();
    extreme("rows-of-8", code, &row.repeat(128))
}

/// All eight ranks write to and read from cell 0 of rank 1, on four queues.
fn one_cell_for_all() -> Extreme {
    let mut transitions = Vec::new();
    for queue in 0..4 {
        transitions.push(transfer(6, 1, 1, 0, queue));
        transitions.push(transfer(5, 2, 1, 0, queue));
    }
    transitions.push(store(1, 9));
    let code = program([8, 3, 1, 4, 1], &transitions);
    let mut acts = vec![command(Kind::Store, 3, 8)];
    for turn in 0..10 {
        for rank in 1..=8 {
            let queue = (turn + rank) % 4;
            acts.push(command(Kind::Write, rank, 2 * queue));
            acts.push(command(Kind::Read, rank, 2 * queue + 1));
        }
        for rank in (1..=8).rev() {
            let queue = (turn + rank) % 4;
            acts.extend([Act::PopA(Pop::of_all(rank, queue)); 2]);
            acts.extend([Act::PopB(Pop::of_all(rank, queue)); 2]);
        }
    }
    extreme("one-cell-for-all", code, &acts)
}

/// 341 writes, then all fetches, then all deliveries: the longest queue.
fn all_delayed() -> Extreme {
    let code = program([1, 2, 1, 1, 1], &[transfer(6, 0, 1, 1, 0), assign()]);
    let mut acts = vec![command(Kind::Assign, 1, 1)];
    acts.extend([command(Kind::Write, 1, 0); 341]);
    acts.extend([Act::PopA(Pop::of_all(1, 0)); 341]);
    acts.extend([Act::PopB(Pop::of_all(1, 0)); 341]);
    extreme("all-delayed", code, &acts)
}

/// 1,000 loads of one cell and then a store to it: arrows from every load to the store.
fn readers_then_writer() -> Extreme {
    let code = program([1, 1, 1, 1, 1], &[load(0), store(0, 3)]);
    let mut acts = vec![command(Kind::Load, 1, 0); 1000];
    acts.push(command(Kind::Store, 1, 1));
    acts.extend([command(Kind::Load, 1, 0); 23]);
    extreme("readers-then-writer", code, &acts)
}

/// Two ranks copy a cell to each other and back, each fetch before the other's delivery.
fn back_and_forth() -> Extreme {
    let code = program(
        [2, 1, 1, 1, 1],
        &[
            transfer(6, 0, 2, 0, 0),
            transfer(6, 0, 1, 0, 0),
            join(&[6, 2, 0, 0, 0, 0, 0], &[2]),
        ],
    );
    let mut acts = vec![command(Kind::Store, 1, 2), command(Kind::Store, 2, 2)];
    for _ in 0..100 {
        acts.extend([command(Kind::Write, 1, 0), command(Kind::Write, 2, 1)]);
        acts.extend([1, 2].map(|rank| Act::PopA(Pop::of_all(rank, 0))));
        acts.extend([1, 2].map(|rank| Act::PopB(Pop::of_all(rank, 0))));
    }
    extreme("back-and-forth", code, &acts)
}

/// 128 transitions through 64 states, each taken.
fn many_transitions() -> Extreme {
    let assign_at = |number: u8| {
        let from = number % 64;
        join(
            &[3, 3, from, (from + 1) % 64, number % 16],
            &constant(number),
        )
    };
    let transitions: Vec<Vec<u8>> = (0..128).map(assign_at).collect();
    let code = program([1, 64, 16, 4, 64], &transitions);
    let acts: Vec<Act> = (0..128)
        .map(|number| command(Kind::Assign, 1, number))
        .collect();
    extreme("transitions-128", code, &acts)
}

/// Left-leaning expressions of 15 tokens in all four places of a write.
fn largest_expressions() -> Extreme {
    let deep = |value: u8| {
        let mut bytes = vec![0x10; 7];
        bytes.extend(constant(value));
        bytes.extend(constant(0).repeat(7));
        bytes
    };
    let fields = [deep(0), deep(1), deep(1), deep(0)].concat();
    let code = program([1, 2, 1, 1, 1], &[join(&[30, 6, 0, 0], &fields)]);
    let pops = [Act::PopA(Pop::of_all(1, 0)), Act::PopB(Pop::of_all(1, 0))];
    let acts = [vec![command(Kind::Write, 1, 0)], pops.to_vec()].concat();
    extreme("tokens-15", code, &acts)
}

/// A right-leaning expression of 15 tokens that comes round at nearly every step, and gave 65,528
/// before #102. With #102 it has no value: the innermost difference is 65,532, and the product
/// around it is above 65,535.
fn right_leaning() -> Extreme {
    let mut tokens = Vec::new();
    for operator in [0x10, 0x11, 0x12, 0x10, 0x11, 0x12, 0x11] {
        tokens.extend([operator, 0, 255, 255]);
    }
    tokens.push(3);
    let value = join(&constant(0), &tokens);
    let [high, low] = 65_528_u16.to_be_bytes();
    let stores = [1, 2, 3].map(|rank| [59, 2, rank, 0, rank, 0, 0, high, low]);
    Extreme {
        name: "tokens-15-right",
        program: program([3, 1, 1, 1, 1], &[join(&[6, 2, 0, 0], &value)]),
        record: record_of(3, &stores.concat()),
    }
}

/// Eight ranks of 64 cells, all written, so that every cell is listed.
fn all_cells() -> Extreme {
    let mut transitions: Vec<Vec<u8>> = (0..64).map(|cell| store(cell, cell + 1)).collect();
    transitions.push(vec![0, 9, 0, 0]);
    let code = program([8, 64, 16, 4, 1], &transitions);
    let mut acts = Vec::new();
    for cell in 0..64 {
        acts.extend((1..=8).map(|rank| command(Kind::Store, rank, cell)));
    }
    extreme("all-cells", code, &acts)
}
