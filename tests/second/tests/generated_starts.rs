//! The generator on #103: runs go by their readings in every way, start bytes are refused at every
//! kind of field, 19 comes beside other faults, and writer and reader get starts of every kind.

mod common;

use common::{assert_seen, count, read_program_and_start, Times};
use second::check::{accept, accept_items, check_bytes, Accepted, Answer};
use second::corpus::{StartReadCase, StartWriteCase};
use second::generator::starts::{start_read_case, start_write_case};
use second::generator::{input, small_input, Input};
use second::harness::{between_guards, compare};
use second::limits::Refusal;
use second::machine::{Access, Part, Start};
use second::order::Verdict;
use second::program::Program;
use second::record::{read_record, Cell};
use std::collections::BTreeSet;

/// What start bytes that are refused at this place show.
fn seen_of_19(program: &Program, start: &[u8], place: usize) -> String {
    let mut at = 0;
    for rank in 1..=program.ranks {
        let whose = if rank == 1 { "rank 1" } else { "a later rank" };
        let Some(map) = start.get(at..at + 8) else {
            return format!("19: missing in the map of {whose}");
        };
        if at == place {
            return format!("19: a bit for a cell A or above of {whose}");
        }
        let listed: u32 = map.iter().map(|byte| byte.count_ones()).sum();
        let end = at + 8 + 2 * listed as usize;
        if (at..end).contains(&place) {
            let what = match place == start.len() {
                true => "missing in a value",
                false => "a listed 0",
            };
            return format!("19: {what} of {whose}");
        }
        at = end;
    }
    "19: left over".into()
}

/// How many of these there are: four at rank 1 and later, and bytes left over.
const OF_START_BYTES: usize = 4 * 2 + 1;

/// What stands beside a 19.
fn seen_beside_19(input: &Input, program: &Program) -> Option<&'static str> {
    let cells = program.ranks * program.cells;
    match read_record(&input.record, program) {
        Err(_) => Some("19 before a fault of the record"),
        Ok(_) if input.cell_bytes / 2 < cells => Some("19 before a list too short"),
        Ok(_) => None,
    }
}

/// What an accepted run shows of its start.
fn seen_of_run(input: &Input) -> BTreeSet<String> {
    let accepted = accept(&input.program, &input.start, &input.record).expect("an order or a ring");
    let zero = Start::zero(&accepted.program);
    let mut seen = BTreeSet::new();
    if input.start.is_empty() {
        seen.insert("from no bytes");
    } else if accepted.start == zero {
        seen.insert("from the zero start");
    } else {
        seen.insert("from readings");
        seen.extend(seen_of_readings(&accepted));
        if accept_items(accepted.program.clone(), zero, accepted.items.clone()).is_err() {
            seen.insert("refused from no bytes");
        }
    }
    let word = match accepted.verdict {
        Verdict::Order(_) => "order",
        Verdict::Ring(_) => "ring",
    };
    seen.into_iter()
        .map(|what| format!("{word}: {what}"))
        .collect()
}

/// What becomes of the readings of an accepted run.
fn seen_of_readings(accepted: &Accepted) -> BTreeSet<&'static str> {
    let accesses: Vec<Access> = accepted
        .run
        .steps
        .iter()
        .filter_map(|step| step.access)
        .collect();
    let mut seen = BTreeSet::new();
    for (index, rank) in accepted.start.0.iter().enumerate() {
        for cell in (0..rank.cells.len()).filter(|&cell| rank.cells[cell] != 0) {
            let rank = index + 1;
            let first = accesses
                .iter()
                .find(|access| access.cell == Cell { rank, cell });
            seen.insert(match first {
                None => "a reading never accessed",
                Some(access) if access.writes => "a reading overwritten",
                Some(access) if access.part == Part::Fetch => "a reading fetched",
                Some(_) => "a reading loaded",
            });
        }
    }
    seen
}

/// What an order may show, and so may a ring: the three starts, that it goes by readings, and what
/// becomes of them.
const OF_RUNS: usize = 3 + 1 + 4;

/// What a refusal shows of its start.
fn seen_of_refusal(input: &Input, refusal: Refusal) -> BTreeSet<String> {
    let Refusal { number, place } = refusal;
    let mut seen = BTreeSet::new();
    if (1..=3).contains(&number) {
        if !input.start.is_empty() {
            seen.insert(format!("{number} with start bytes"));
        }
        return seen;
    }
    let Some((program, start)) = read_program_and_start(input) else {
        let program = Program::read(&input.program).expect("not 1 to 3");
        seen.insert(seen_of_19(&program, &input.start, place));
        seen.extend(seen_beside_19(input, &program).map(String::from));
        return seen;
    };
    if start != Start::zero(&program) {
        seen.insert(format!("{number} from readings"));
        let from_zero = accept(&input.program, &[], &input.record);
        if number != 14 && number != 15 && from_zero.err() != Some(refusal) {
            seen.insert(format!("{number} by readings"));
        }
    }
    seen
}

/// All that may be seen of refusals: of start bytes; two kinds of fault beside them; 1 to 3 with
/// start bytes; 4 to 15 and 18 from readings; and those of them that only the readings bring, all
/// that the replay tells.
const OF_REFUSALS: usize = OF_START_BYTES + 2 + 3 + 13 + 8;

#[test]
fn every_rule_of_103_is_seen() {
    let mut times = Times::new();
    for index in 0..20_000 {
        let input = input(20, index);
        let answer = compare(&between_guards(&check_bytes), &input)
            .unwrap_or_else(|fault| panic!("seed 20, index {index}: {fault}"));
        let seen = match answer {
            Answer::Refused(refusal) => seen_of_refusal(&input, refusal),
            _ => seen_of_run(&input),
        };
        count(&mut times, seen);
    }
    assert_seen(&times, 2 * OF_RUNS + OF_REFUSALS, 8);
}

#[test]
fn small_records_go_by_readings_in_every_way() {
    let mut times = Times::new();
    for index in 0..10_000 {
        count(&mut times, seen_of_run(&small_input(21, index)));
    }
    assert_seen(&times, 2 * OF_RUNS, 100);
}

/// What a case of the writer shows.
fn seen_of_writer(case: &StartWriteCase) -> String {
    let entries = || usize::from(case.program[0]) * usize::from(case.program[1]);
    match &case.answer {
        Ok(start) if start.iter().all(|&byte| byte == 0) => "writer: zero".into(),
        Ok(_) => {
            let longer = case.cells.len() > entries();
            format!("writer: readings, entries beyond {longer}")
        }
        Err(Refusal { number: 15, .. }) => {
            let list_short = case.cells.len() < entries();
            format!("writer: 15, list too short {list_short}")
        }
        Err(refusal) => format!("writer: {}", refusal.number),
    }
}

/// What a case of the reader shows.
fn seen_of_reader(case: &StartReadCase) -> String {
    match &case.answer {
        Ok(_) if case.start.is_empty() => "reader: no bytes".into(),
        Ok(cells) if cells.iter().all(|&value| value == 0) => "reader: zero".into(),
        Ok(_) => "reader: readings".into(),
        Err(Refusal { number: 19, place }) => {
            let program = Program::read(&case.program).expect("not 1 to 3");
            seen_of_19(&program, &case.start, *place)
        }
        Err(refusal) => format!("reader: {}", refusal.number),
    }
}

#[test]
fn writer_and_reader_get_starts_of_every_kind() {
    let mut times = Times::new();
    for index in 0..6_000 {
        let write = seen_of_writer(&start_write_case(22, index));
        let read = seen_of_reader(&start_read_case(22, index));
        count(&mut times, BTreeSet::from([write, read]));
    }
    // of the writer: zero, readings twice, 15 twice, 1 and 2; of the reader: three, 1, 2 and 15
    assert_seen(&times, 7 + 6 + OF_START_BYTES, 20);
}
