//! The times of check, listing and slip writer, proved and compiled, beside the second program's, on the same bytes.
//!
//! Prints two lines for each function and shape of records, and for the check on programs and on starts with a record of no items; the time of a
//! call on run b, which is one small record, and of the check on run b from a few readings; and whether the first program's time grows in step with
//! the items, with the transitions, or with the readings. Ends with 1 if it does not, if a ring takes too long to find, or if the two programs disagree
//! on an input.

mod first;
mod mixed;
mod neighbours;
mod rings;
mod shapes;

use second::check::{check_bytes, Answer};
use second::extras::{listed, slip_written};
use second::machine::{Machine, Start};
use second::program::Program;
use second::record::{record_bytes, Act, Item};
use std::hint::black_box;
use std::process::ExitCode;
use std::time::Instant;

/// The lengths of the records: the longest, and half of it.
const LENGTHS: [usize; 2] = [512, 1024];
/// The transitions of the programs that are read: the most, and half of it.
const TRANSITIONS: [usize; 2] = [200, 400];
/// The readings of the starts that are read: the most, which is 64 at each of 16 ranks, and half of it.
const READINGS: [usize; 2] = [512, 1024];
/// The cells of a rank with readings in all of them.
const CELLS: usize = 64;
/// How many times the cost of a record, program or start one of twice the length may have, and that of a record with a ring, which is searched for.
const MOST_GROWTH: f64 = 2.2;
const MOST_RING_GROWTH: f64 = 4.0;
/// The microseconds that a check of a record with a ring may take.
const MOST_RING_COST: f64 = 300.0;
/// Run b of document 01: the sample that `make sample` lists.
const RUN_B: (&[u8], &[u8]) = (
    include_bytes!("../../../samples/neighbour/run.prg"),
    include_bytes!("../../../samples/neighbour/run.rec"),
);
/// A start for run b: rank 1 has a reading in cell 0, and rank 2 in both cells. Its load sees no reading.
const FEW_READINGS: [u8; 22] = [
    0, 0, 0, 0, 0, 0, 0, 1, 0, 40, 0, 0, 0, 0, 0, 0, 0, 3, 0, 50, 0, 60,
];
/// Batches of each program, of which the median is taken.
const BATCHES: usize = 21;
/// Calls in a batch: of the first program on long records, of the second on them, and of both on run b.
const FIRST_CALLS: usize = 200;
const SECOND_CALLS: usize = 2;
const RUN_B_CALLS: usize = 20_000;
/// Calls in a batch on programs, as above, and of both programs on starts.
const PROGRAM_CALLS: [usize; 2] = [FIRST_CALLS, SECOND_CALLS];
const START_CALLS: [usize; 2] = [2_000, 2_000];
/// Bytes that are enough for every answer.
const ORDER_BYTES: usize = 2 * 1024;
const CELL_BYTES: usize = 2 * 16 * 64;
const TEXT_BYTES: usize = 44_043;

/// What is measured.
const MEASURED: &str = "\
A call, in microseconds, from program, start and record bytes to all that it fills, which is enough for every answer.
check, listing, slip: the whole check, the listing, the slip's writer.
first:  lellmusu_check, lellmusu_list and lellmusu_write_slip of the static library, proved.
second: tests/second. Its work for each group grows with the groups. Built for release, without the overflow checks that
        its own tests have.
mixed:  one item in three is a transfer's command, of all ranks and queues, done at once or waiting in many ways.
falling, rising, ring: two ranks; arrows that fall, none that fall, and a ring of all groups.
named:  sixteen transfers wait in one queue, each for another rank, and each pop names the rank whose entry stands last.
far, many, woven: one rank; a ring within a ring, and so on, the shortest of 425, 125 and 213 groups. linked: rings that
        overlap. hub: rings of three groups, all through one store that half of all groups lead to. crowd: two ranks in no
        order, and short rings everywhere.
program: so many transitions, each a write of constants, and a record of no items.
start:  so many readings, 64 at each rank, and a record of no items. All others but one are from no start bytes.";

/// A shape of records: its name, its program, what a record of so many items does, and its verdict.
struct Shape {
    name: &'static str,
    program: fn() -> Program,
    acts: fn(&Program, usize) -> Vec<Act>,
    cyclic: bool,
}

const SHAPES: [Shape; 5] = [
    Shape {
        name: "mixed",
        program: mixed::program,
        acts: mixed::acts,
        cyclic: false,
    },
    Shape {
        name: "falling",
        program: shapes::program,
        acts: |_, items| shapes::falling(items),
        cyclic: false,
    },
    Shape {
        name: "rising",
        program: shapes::program,
        acts: |_, items| shapes::rising(items),
        cyclic: false,
    },
    Shape {
        name: "ring",
        program: shapes::program,
        acts: |_, items| shapes::ring(items),
        cyclic: true,
    },
    Shape {
        name: "named",
        program: neighbours::program,
        acts: |_, items| neighbours::acts(items),
        cyclic: false,
    },
];

/// Rings, of which the check alone is measured: the listing and the slip have no other work with them than with an order.
const RINGS: [Shape; 6] = [
    ring("far", rings::alone, |_, items| rings::far(items)),
    ring("many", rings::alone, |_, items| rings::many(items)),
    ring("woven", rings::alone, |_, items| rings::woven(items)),
    ring("linked", rings::alone, |_, items| rings::linked(items)),
    ring("hub", rings::alone, |_, items| rings::hub(items)),
    ring("crowd", rings::both, |_, items| rings::crowd(items)),
];

/// A shape whose records have a ring.
const fn ring(
    name: &'static str,
    program: fn() -> Program,
    acts: fn(&Program, usize) -> Vec<Act>,
) -> Shape {
    Shape {
        name,
        program,
        acts,
        cyclic: true,
    }
}

/// What both programs are given, and the memory that they fill.
struct Input {
    program: Vec<u8>,
    start: Vec<u8>,
    record: Vec<u8>,
    order: Vec<u8>,
    cells: Vec<u8>,
    text: Vec<u8>,
}

/// A function that is measured: its name, and how each program is called. A call gives the number and the value that it tells.
struct Work {
    name: &'static str,
    first: fn(&mut Input) -> (u8, usize),
    second: fn(&mut Input) -> (u8, usize),
}

const WORKS: [Work; 3] = [
    Work {
        name: "check",
        first: |i| first::check(&i.program, &i.start, &i.record, &mut i.order, &mut i.cells),
        second: |i| {
            told(check_bytes(
                &i.program,
                &i.start,
                &i.record,
                &mut i.order,
                &mut i.cells,
            ))
        },
    },
    Work {
        name: "listing",
        first: |i| first::list(&i.program, &i.start, &i.record, &mut i.text),
        second: |i| {
            let told = listed(&i.program, &i.start, &i.record, &mut i.text);
            (told.number, told.value)
        },
    },
    Work {
        name: "slip",
        first: |i| first::write_slip(&i.program, &i.start, &i.record, &mut i.text),
        second: |i| {
            let told = slip_written(&i.program, &i.start, &i.record, &mut i.text);
            (told.number, told.value)
        },
    },
];

/// The second program's answer, as the library tells it.
fn told(answer: Answer) -> (u8, usize) {
    match answer {
        Answer::Order(count) => (first::ORDER, count),
        Answer::Ring(count) => (first::RING, count),
        Answer::Refused(refusal) => (refusal.number, refusal.place),
    }
}

/// The bytes of a record that does so, each item with its place and value as the replay has them.
fn bytes_of(program: &Program, acts: Vec<Act>) -> Vec<u8> {
    let mut machine = Machine::new(program, &Start::zero(program));
    let placed = |act: Act| {
        let step = machine
            .perform(program, act)
            .expect("every act of the record is taken");
        Item {
            act,
            place: step.access.map(|access| access.cell),
            value: step.access.map(|access| access.value),
        }
    };
    let items: Vec<Item> = acts.into_iter().map(placed).collect();
    record_bytes(&items)
}

impl Input {
    /// These bytes, with enough memory.
    fn new(program: Vec<u8>, start: Vec<u8>, record: Vec<u8>) -> Input {
        Input {
            program,
            start,
            record,
            order: vec![0; ORDER_BYTES],
            cells: vec![0; CELL_BYTES],
            text: vec![0; TEXT_BYTES],
        }
    }

    /// A record of a shape.
    fn of(shape: &Shape, items: usize) -> Input {
        let program = (shape.program)();
        let record = bytes_of(&program, (shape.acts)(&program, items));
        Input::new(program.to_bytes(), Vec::new(), record)
    }

    /// Clears the memory, calls, and gives what was told and filled.
    fn filled(&mut self, call: fn(&mut Input) -> (u8, usize)) -> ((u8, usize), [Vec<u8>; 3]) {
        self.order.fill(0);
        self.cells.fill(0);
        self.text.fill(0);
        let told = call(self);
        (
            told,
            [self.order.clone(), self.cells.clone(), self.text.clone()],
        )
    }

    /// The number that both programs tell, with the same value and the same memory.
    fn agreed(&mut self, work: &Work) -> Result<u8, String> {
        let (first, second) = (self.filled(work.first), self.filled(work.second));
        if first != second {
            let (first, second) = (first.0, second.0);
            return Err(format!(
                "{}: the first tells {first:?}, the second {second:?}, or their memory differs",
                work.name
            ));
        }
        Ok(first.0 .0)
    }

    /// A batch of each program on this input: microseconds for a call.
    fn turn(&mut self, work: &Work, first_calls: usize, second_calls: usize) -> Times {
        Times {
            first: batch(first_calls, || (work.first)(black_box(&mut *self))),
            second: batch(second_calls, || (work.second)(black_box(&mut *self))),
        }
    }
}

/// Microseconds of both programs for a call.
#[derive(Clone, Copy)]
struct Times {
    first: f64,
    second: f64,
}

/// The medians of so many batches. Programs and inputs take turns, so that a slower or faster moment of the machine meets all of them.
fn measure(
    work: &Work,
    inputs: &mut [Input],
    first_calls: usize,
    second_calls: usize,
) -> Vec<Times> {
    let mut turns: Vec<Vec<Times>> = vec![Vec::new(); inputs.len()];
    for _ in 0..=BATCHES {
        for (input, times) in inputs.iter_mut().zip(&mut turns) {
            times.push(input.turn(work, first_calls, second_calls));
        }
    }
    let medians = |times: Vec<Times>| Times {
        // The first batch of each only warms up.
        first: median(times[1..].iter().map(|times| times.first).collect()),
        second: median(times[1..].iter().map(|times| times.second).collect()),
    };
    turns.into_iter().map(medians).collect()
}

/// Microseconds for each of so many calls.
fn batch<T>(calls: usize, mut call: impl FnMut() -> T) -> f64 {
    let begun = Instant::now();
    for _ in 0..calls {
        black_box(call());
    }
    begun.elapsed().as_secs_f64() * 1e6 / calls as f64
}

/// The middle one of an odd number of times.
fn median(mut times: Vec<f64>) -> f64 {
    times.sort_by(f64::total_cmp);
    times[times.len() / 2]
}

/// Measures a function on the records of a shape, and says whether the first program's time grows in step with the items.
fn measured(work: &Work, shape: &Shape) -> Result<bool, String> {
    let mut inputs = LENGTHS.map(|items| Input::of(shape, items));
    for input in &mut inputs {
        let verdict = if shape.cyclic {
            first::RING
        } else {
            first::ORDER
        };
        if input.agreed(&WORKS[0])? != verdict {
            return Err(format!("{}: not a record of its shape", shape.name));
        }
        input.agreed(work)?;
    }
    let times = measure(work, &mut inputs, FIRST_CALLS, SECOND_CALLS);
    let name = format!("{:7} {:7}", work.name, shape.name);
    if shape.cyclic && times[1].first > MOST_RING_COST {
        println!("{name} at most {MOST_RING_COST} us are allowed: TOO MUCH");
        return Ok(false);
    }
    let most = if shape.cyclic {
        MOST_RING_GROWTH
    } else {
        MOST_GROWTH
    };
    Ok(in_step(&name, LENGTHS, &times, most))
}

/// Prints a line for each of two lengths, and says whether the first program's time grows in step with them, by at most so much.
fn in_step(name: &str, lengths: [usize; 2], times: &[Times], most: f64) -> bool {
    for (length, Times { first, second }) in lengths.into_iter().zip(times) {
        let each = 1e3 * first / length as f64;
        let ratio = first / second;
        println!("{name} {length:5} {first:9.2} {each:8.1} {second:10.1} {ratio:13.3}");
    }
    let [half, whole] = lengths;
    let growth = times[1].first / times[0].first;
    let linear = growth <= most;
    let verdict = if linear { "ok" } else { "TOO MUCH" };
    println!("{name} {whole} cost {growth:.2} times what {half} cost; at most {most:.1} is allowed: {verdict}");
    linear
}

/// A program of so many transitions, more than 128: one cell, register, queue and state, and writes of cell 0 to cell 0 of rank 1.
fn program_of(transitions: usize) -> Vec<u8> {
    const WRITE: [u8; 16] = [30, 6, 0, 0, 0, 0, 0, 0, 0, 1, 0, 0, 0, 0, 0, 0];
    let mut program = vec![1, 1, 1, 1, 1, 255];
    program.extend((transitions as u16).to_be_bytes());
    program.extend(WRITE.repeat(transitions));
    program
}

/// A program and a start of it with so many readings, 64 at each rank: one register, queue and state, and no transitions.
fn program_and_start_of(readings: usize) -> (Vec<u8>, Vec<u8>) {
    let ranks = readings / CELLS;
    let program = vec![ranks as u8, CELLS as u8, 1, 1, 1, 0];
    let rank = [&[255; 8][..], &[1, 2].repeat(CELLS)].concat();
    (program, rank.repeat(ranks))
}

/// Measures the check on programs with a record of no items.
fn programs(work: &Work) -> Result<bool, String> {
    let input = |count| Input::new(program_of(count), Vec::new(), vec![0, 0]);
    reading(work, "program", TRANSITIONS, PROGRAM_CALLS, input)
}

/// Measures the check on starts with a record of no items.
fn starts(work: &Work) -> Result<bool, String> {
    let input = |readings| {
        let (program, start) = program_and_start_of(readings);
        Input::new(program, start, vec![0, 0])
    };
    reading(work, "start", READINGS, START_CALLS, input)
}

/// Measures a function on inputs of two lengths with a record of no items, and says whether the first program's time grows in step with them.
fn reading(
    work: &Work,
    what: &str,
    lengths: [usize; 2],
    [first_calls, second_calls]: [usize; 2],
    input: impl Fn(usize) -> Input,
) -> Result<bool, String> {
    let mut inputs = lengths.map(input);
    for input in &mut inputs {
        if input.agreed(work)? != first::ORDER {
            return Err(format!("a {what} that cannot be read"));
        }
    }
    let times = measure(work, &mut inputs, first_calls, second_calls);
    let name = format!("{:7} {what:7}", work.name);
    Ok(in_step(&name, lengths, &times, MOST_GROWTH))
}

/// Measures a function on run b from these start bytes.
fn run_b(work: &Work, from: &str, start: &[u8]) -> Result<(), String> {
    let (program, record) = RUN_B;
    let mut input = Input::new(program.to_vec(), start.to_vec(), record.to_vec());
    input.agreed(work)?;
    let Times { first, second } = measure(work, &mut [input], RUN_B_CALLS, RUN_B_CALLS)[0];
    println!(
        "{:7} run b{from}: a call costs first {first:.2} us, second {second:.2} us, first/second {:.2}",
        work.name,
        first / second
    );
    Ok(())
}

/// Measures all functions on all shapes and on run b, and the check on run b from readings, on programs and on starts.
fn bench() -> Result<bool, String> {
    println!("{MEASURED}");
    println!("Each time is the median of {BATCHES} batches, programs and lengths by turns, after a batch to warm up.");
    println!("               length  first us  ns each  second us  first/second");
    let mut linear = true;
    for work in &WORKS {
        for shape in &SHAPES {
            linear &= measured(work, shape)?;
        }
        run_b(work, "", &[])?;
    }
    for shape in &RINGS {
        linear &= measured(&WORKS[0], shape)?;
    }
    run_b(&WORKS[0], " from 3 readings", &FEW_READINGS)?;
    linear &= programs(&WORKS[0])?;
    linear &= starts(&WORKS[0])?;
    Ok(linear)
}

fn main() -> ExitCode {
    match bench() {
        Ok(true) => ExitCode::SUCCESS,
        Ok(false) => ExitCode::FAILURE,
        Err(fault) => {
            eprintln!("bench: {fault}");
            ExitCode::FAILURE
        }
    }
}
