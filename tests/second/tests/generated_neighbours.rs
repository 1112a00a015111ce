//! The generator on #108: every way that transfers overtake each other, and every refusal of map bit
//! 6 and the remote rank, come often enough.

mod common;

use common::{accepted, assert_seen, count, read_program_and_start, Times};
use second::check::{accept, check_bytes, Accepted, Answer};
use second::generator::neighbours::loosened_run;
use second::generator::{input, names_remote, small_input, Input};
use second::harness::{between_guards, compare};
use second::judge::judge_order;
use second::limits::Refusal;
use second::machine::{Machine, Start};
use second::order::Verdict;
use second::program::{Kind, Program};
use second::record::{fields, items_of, read_record, Act, Item, Pop};
use std::collections::BTreeSet;

/// What a pop that is taken shows: the machine before it, the pop, and whether it is of a read.
fn seen_of_pop(machine: &Machine, act: Act, read: bool) -> Vec<String> {
    let (word, waiting) = (act.kind().word(), machine.remotes_waiting(act));
    let Some(pop) = act.pop() else { return vec![] };
    let others = waiting.iter().any(|&remote| remote != waiting[0]);
    let mut seen = Vec::new();
    let Some(remote) = pop.remote else {
        if others {
            seen.push(format!("plain {word} of several ranks"));
        }
        if issued_late(machine, pop) && word == "popb" {
            seen.push("plain popb of a later request that was fetched first".into());
        }
        return seen;
    };
    match waiting[0] == remote {
        true if others => seen.push(format!("{word} that names the oldest's rank")),
        true => seen.push(format!("{word} that names the only rank")),
        false => seen.push(format!("{word} that overtakes")),
    }
    let whose = if remote == pop.rank { "own" } else { "other" };
    let kind = if read { "read" } else { "write" };
    seen.push(format!("{word} of a {kind} that names the {whose} rank"));
    seen
}

/// Whether the first delivery of a pop's queue is not the one that was issued first.
fn issued_late(machine: &Machine, pop: &Pop) -> bool {
    let deliveries = &machine.rank(pop.rank).deliveries[pop.queue];
    let first = deliveries.iter().map(|delivery| delivery.command).min();
    deliveries.front().map(|delivery| delivery.command) != first
}

/// What an accepted run shows.
fn seen_of_run(accepted: &Accepted) -> BTreeSet<String> {
    let word = match accepted.verdict {
        Verdict::Order(_) => "order",
        Verdict::Ring(_) => "ring",
    };
    let mut seen = BTreeSet::new();
    let mut machine = Machine::new(&accepted.program, &accepted.start);
    for (number, item) in accepted.items.iter().enumerate() {
        let group = accepted.grouping.group_of[number];
        let read = accepted.grouping.groups[group].kind == Kind::Read;
        let of_pop = seen_of_pop(&machine, item.act, read).into_iter();
        seen.extend(of_pop.map(|what| format!("{word}: {what}")));
        machine
            .step(&accepted.program, item)
            .expect("the run is accepted");
    }
    seen
}

/// What a record that cannot be read shows of bit 6 and the remote rank, if anything.
fn seen_of_bytes(program: &Program, record: &[u8], refusal: Refusal) -> Option<String> {
    let Refusal { number, place } = refusal;
    let holds = |&at: &usize| (at..=at + 1 + fields(record[at])).contains(&place);
    let at = items_of(record).into_iter().find(holds)?;
    let (map, last) = (record[at], at + 1 + fields(record[at]));
    let named = map & 64 != 0 && map & 128 == 0;
    let pop = matches!(record[at + 1], 7 | 8);
    let valued = ["without", "with"][usize::from(map & 32 != 0)];
    match number {
        _ if !named => None,
        4 if pop && place == last => Some(format!("missing {valued} a value")),
        5 if pop && place == last => {
            let class = match usize::from(record[place]) {
                0 => "0",
                255 => "255",
                remote if remote == program.ranks + 1 => "N + 1",
                _ => "between",
            };
            Some(format!("{class} {valued} a value"))
        }
        5 if pop => Some("a field before it".into()),
        6 if pop && place == at => Some("bit 6 in a wrong map of a pop".into()),
        6 if place == at => Some("bit 6 of a command".into()),
        _ => None,
    }
}

/// What a record that the replay refuses at a pop with a name shows.
fn seen_of_replay(
    program: &Program,
    start: &Start,
    items: &[Item],
    refusal: Refusal,
) -> Option<String> {
    let Refusal { number, place } = refusal;
    let Some(item) = items.get(place) else {
        let named = items.iter().any(names_remote);
        return (named && number == 13).then(|| "left behind".into());
    };
    let remote = item.act.pop()?.remote?;
    let mut machine = Machine::new(program, start);
    for item in &items[..place] {
        machine.step(program, item).expect("the items before it");
    }
    if number != 10 {
        return Some(format!("refused {number}"));
    }
    let waits = |act: Act| machine.remotes_waiting(act).contains(&remote);
    let popa = |pop: Pop| waits(Act::PopA(pop));
    let anywhere = |pop: Pop| waits(Act::PopA(pop)) || waits(Act::PopB(pop));
    let pop = *item.act.pop()?;
    let other_queue = (0..program.queues).any(|queue| anywhere(Pop { queue, ..pop }));
    let other_rank = (1..=program.ranks).any(|rank| anywhere(Pop { rank, ..pop }));
    let word = item.act.kind().word();
    Some(match machine.remotes_waiting(item.act).is_empty() {
        _ if word == "popb" && popa(pop) => "none waits: a request does".into(),
        _ if other_queue => "none waits: one does in another queue".into(),
        _ if other_rank => "none waits: one does at another rank".into(),
        true => format!("none waits for {word}: nothing at all"),
        false => format!("none waits for {word}: only other ranks"),
    })
}

/// What an input and its answer show.
fn seen(input: &Input, answer: Answer) -> BTreeSet<String> {
    let Answer::Refused(refusal) = answer else {
        let accepted =
            accept(&input.program, &input.start, &input.record).expect("an order or a ring");
        return seen_of_run(&accepted);
    };
    let Some((program, start)) = read_program_and_start(input) else {
        return BTreeSet::new();
    };
    let seen = match read_record(&input.record, &program) {
        Err(refusal) => seen_of_bytes(&program, &input.record, refusal),
        Ok(items) if refusal.number <= 13 => seen_of_replay(&program, &start, &items, refusal),
        Ok(_) => None,
    };
    seen.into_iter().collect()
}

#[test]
fn every_rule_of_108_is_seen() {
    let mut times = Times::new();
    for index in 0..20_000 {
        let input = input(15, index);
        let answer = compare(&between_guards(&check_bytes), &input)
            .unwrap_or_else(|fault| panic!("seed 15, index {index}: {fault}"));
        count(&mut times, seen(&input, answer));
    }
    assert_seen(&times, THINGS, 4);
}

/// What an order may show, and so may a ring: each pop plain among several ranks, naming the only
/// rank, the oldest's, or overtaking, of a read or write, with the own rank or another; and plain
/// deliveries out of the order of issue.
const OF_RUNS: usize = 2 * (1 + 3 + 4) + 1;
/// All that may be seen: of both verdicts; of the bytes, five faults of the remote rank with a value
/// and without, and three more; of the replay, 10 in seven ways, 11, 12 and 13.
const THINGS: usize = 2 * OF_RUNS + 2 * 5 + 3 + 7 + 3;

#[test]
fn small_records_overtake_in_every_way() {
    let mut times = Times::new();
    for index in 0..24_000 {
        let input = small_input(16, index);
        let accepted =
            accept(&input.program, &input.start, &input.record).expect("an execution is accepted");
        count(&mut times, seen_of_run(&accepted));
    }
    assert_seen(&times, 2 * OF_RUNS, 50);
}

#[test]
fn loosened_plain_runs_with_names_have_an_order() {
    let (mut longest, mut times) = (0, Times::new());
    for index in 0..400 {
        let accepted = accepted(loosened_run, 17, index);
        let Verdict::Order(order) = &accepted.verdict else {
            panic!("seed 17, index {index}: a ring for the trace of a plain run");
        };
        judge_order(&accepted, order)
            .unwrap_or_else(|fault| panic!("seed 17, index {index}: {fault}"));
        longest = longest.max(accepted.items.len());
        count(&mut times, seen_of_run(&accepted));
    }
    println!("loosened: 400 orders, the longest of {longest} items");
    assert!(longest >= 500);
    assert_seen(&times, OF_RUNS, 20);
}
