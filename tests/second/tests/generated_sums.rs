//! The generator on #102: every expression of every command comes to the edges and beyond, with
//! every operator, and 18 comes beside every other fault of an item.

mod common;

use common::{assert_seen, count, read_program_and_start, Times};
use second::check::{accept, check_bytes, Answer};
use second::expression::{Environment, Expression, Operator};
use second::generator::{input, small_input, Input};
use second::harness::{between_guards, compare};
use second::limits::Refusal;
use second::machine::{Machine, Start};
use second::order::Verdict;
use second::program::{Program, Transition};
use second::record::{read_record, Act, Item};
use std::collections::BTreeSet;

/// The operator's word.
fn word(operator: Operator) -> &'static str {
    match operator {
        Operator::Sum => "sum",
        Operator::Difference => "difference",
        Operator::Product => "product",
        Operator::Equal => "equal",
        Operator::Less => "less",
    }
}

/// What a part's operands are made of: the first of these that they hold.
fn source(expression: &Expression) -> &'static str {
    const SOURCES: [&str; 4] = ["a register", "the own rank", "N", "constants"];
    fn rank(expression: &Expression) -> usize {
        match expression {
            Expression::Register(_) => 0,
            Expression::OwnRank => 1,
            Expression::RankCount => 2,
            Expression::Constant(_) => 3,
            Expression::Binary(_, first, second) | Expression::Dated(_, first, second) => {
                rank(first).min(rank(second))
            }
        }
    }
    SOURCES[rank(expression)]
}

/// Notes how an expression without a value comes to have none.
fn note_without(expression: &Expression, environment: &Environment, seen: &mut BTreeSet<String>) {
    let Expression::Binary(operator, first, second) = expression else {
        return;
    };
    let without = [first, second].map(|operand| operand.evaluate(environment).is_none());
    let outer = word(*operator);
    match without {
        [false, false] => seen.insert(format!("18: a {outer} of {} passes", source(expression))),
        [true, false] => seen.insert(format!("18: first operand of {outer}")),
        [false, true] => seen.insert(format!("18: second operand of {outer}")),
        [true, true] => seen.insert("18: both operands".into()),
    };
    for operand in [first, second] {
        if operand.evaluate(environment).is_none() {
            note_without(operand, environment, seen);
        }
    }
}

/// Whether an expression holds a part with this operator that has this value.
fn holds(
    expression: &Expression,
    environment: &Environment,
    (part, value): (Operator, u16),
) -> bool {
    match expression {
        Expression::Binary(operator, first, second) => {
            *operator == part && expression.evaluate(environment) == Some(value)
                || holds(first, environment, (part, value))
                || holds(second, environment, (part, value))
        }
        _ => false,
    }
}

/// The parts at the edges of the range.
const EDGES: [(Operator, u16); 3] = [
    (Operator::Sum, 65_535),
    (Operator::Difference, 0),
    (Operator::Product, 65_535),
];

/// What an item that takes a transition is evaluated in.
struct Taken<'a> {
    /// The program.
    program: &'a Program,
    /// The machine before the item.
    machine: &'a Machine,
    /// The item.
    item: &'a Item,
    /// The transition that it takes.
    transition: &'a Transition,
}

impl<'a> Taken<'a> {
    /// The item and what it takes, if it takes a transition.
    fn of(program: &'a Program, machine: &'a Machine, item: &'a Item) -> Option<Taken<'a>> {
        let transition = &program.transitions[item.act.transition()?];
        Some(Taken {
            program,
            machine,
            item,
            transition,
        })
    }

    /// What its expressions are evaluated in.
    fn environment(&self) -> Environment<'a> {
        let rank = self.item.act.rank();
        Environment {
            registers: &self.machine.rank(rank).registers,
            rank,
            ranks: self.program.ranks,
        }
    }

    /// The places of its expressions that have no value.
    fn without(&self) -> Vec<usize> {
        let environment = self.environment();
        let expressions = &self.transition.expressions;
        let without = |&place: &usize| expressions[place].evaluate(&environment).is_none();
        (0..expressions.len()).filter(without).collect()
    }

    /// The number that the item gets if this stands for each of its expressions.
    fn number(&self, stands_for: impl Fn(usize, &Expression) -> Expression) -> Option<u8> {
        let places = self.transition.expressions.iter().enumerate();
        let expressions = places.map(|(place, expression)| stands_for(place, expression));
        let transition = Transition {
            expressions: expressions.collect(),
            ..self.transition.clone()
        };
        let program = Program {
            transitions: vec![transition],
            ..*self.program
        };
        let act = Act::Command {
            kind: self.item.act.kind(),
            rank: self.item.act.rank(),
            transition: 0,
        };
        let item = Item { act, ..*self.item };
        self.machine.clone().step(&program, &item).err()
    }

    /// What an item that is refused with 18 shows.
    fn seen_of_18(&self) -> BTreeSet<String> {
        let without = self.without();
        let kind = self.transition.kind.word();
        let mut seen = BTreeSet::new();
        for &place in &without {
            seen.insert(format!("18: {kind} e{}", place + 1));
            let expression = &self.transition.expressions[place];
            note_without(expression, &self.environment(), &mut seen);
        }
        let dated = self.number(|_, expression| expression.clone().dated());
        seen.insert(match dated {
            Some(number) => format!("18 where it was {number}"),
            None => "18 where it was accepted".into(),
        });
        let usual = |place, expression: &Expression| match without.contains(&place) {
            true => Expression::Constant(u16::from(place == 1)),
            false => expression.clone(),
        };
        if self.number(usual) == Some(8) {
            seen.insert("18 before 8 of another expression".into());
        }
        seen
    }
}

/// The machine after the items before this place.
fn machine_before(program: &Program, start: &Start, items: &[Item]) -> Machine {
    let mut machine = Machine::new(program, start);
    for item in items {
        machine.step(program, item).expect("the items before it");
    }
    machine
}

/// What a refusal by the replay shows.
fn seen_of_refusal(
    program: &Program,
    start: &Start,
    items: &[Item],
    refusal: Refusal,
) -> BTreeSet<String> {
    let Refusal { number, place } = refusal;
    let Some(item) = items.get(place) else {
        return BTreeSet::new();
    };
    let machine = machine_before(program, start, &items[..place]);
    let Some(taken) = Taken::of(program, &machine, item) else {
        return BTreeSet::new();
    };
    match number {
        18 => taken.seen_of_18(),
        7 | 12 if !taken.without().is_empty() => BTreeSet::from([format!("{number} before 18")]),
        _ => BTreeSet::new(),
    }
}

/// What an accepted run shows.
fn seen_of_run(input: &Input) -> BTreeSet<String> {
    let accepted = accept(&input.program, &input.start, &input.record).expect("an order or a ring");
    let verdict = match accepted.verdict {
        Verdict::Order(_) => "order",
        Verdict::Ring(_) => "ring",
    };
    let program = &accepted.program;
    let mut machine = Machine::new(program, &accepted.start);
    let mut seen = BTreeSet::new();
    for item in &accepted.items {
        if let Some(taken) = Taken::of(program, &machine, item) {
            let environment = taken.environment();
            for edge in EDGES {
                let at_edge = |expression: &Expression| holds(expression, &environment, edge);
                if taken.transition.expressions.iter().any(at_edge) {
                    seen.insert(format!("{verdict}: {} of {}", word(edge.0), edge.1));
                }
            }
            let from_here = |other: &&Transition| other.from == taken.transition.from;
            let without = |expression: &Expression| expression.evaluate(&environment).is_none();
            let mut others = program.transitions.iter().filter(from_here);
            if others.any(|other| other.expressions.iter().any(without)) {
                seen.insert(format!("{verdict}: another transition without a value"));
            }
        }
        machine.step(program, item).expect("the run is accepted");
    }
    seen
}

/// What an input and its answer show.
fn seen(input: &Input, answer: Answer) -> BTreeSet<String> {
    let Answer::Refused(refusal) = answer else {
        return seen_of_run(input);
    };
    let Some((program, start)) = read_program_and_start(input) else {
        return BTreeSet::new();
    };
    match read_record(&input.record, &program) {
        Ok(items) => seen_of_refusal(&program, &start, &items, refusal),
        Err(_) => BTreeSet::new(),
    }
}

/// What an accepted run may show, with an order or with a ring: each edge, and what is not taken.
const OF_RUNS: usize = 2 * (3 + 1);
/// All that may be seen: of runs; an expression without a value in each of the thirteen places, as
/// either operand of each operator or as both, and for each operator that may pass the range by
/// each of the four sources; 18 where document 01 alone accepts or has 8, 9 or 11, and where
/// another expression has 8; and 7 and 12 before it.
const THINGS: usize = OF_RUNS + 13 + (5 * 2 + 1) + 3 * 4 + 4 + 1 + 2;

#[test]
fn every_rule_of_102_is_seen() {
    let mut times = Times::new();
    for index in 0..20_000 {
        let input = input(18, index);
        let answer = compare(&between_guards(&check_bytes), &input)
            .unwrap_or_else(|fault| panic!("seed 18, index {index}: {fault}"));
        count(&mut times, seen(&input, answer));
    }
    assert_seen(&times, THINGS, 8);
}

#[test]
fn small_records_come_to_every_edge() {
    let mut times = Times::new();
    for index in 0..10_000 {
        count(&mut times, seen_of_run(&small_input(19, index)));
    }
    assert_seen(&times, OF_RUNS, 100);
}
