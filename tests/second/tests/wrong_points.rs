//! The corpus alone must catch a subject that is wrong in one point only. Each line of the table
//! has a mistake, the case that is there for it, and the knob that makes it.

mod common;

use common::cases;
use common::graph::{from_its_lowest, Graph};
use second::check::{accept_items, fill_bytes, last_cells, Accepted, Answer};
use second::corpus::Case;
use second::expression::{Expression, Operator};
use second::harness::{between_guards, compare_case, Subject};
use second::limits::{refuse, Outcome};
use second::listing::lines_of;
use second::machine::Start;
use second::order::{steps_to, Verdict};
use second::program::{Kind, Program};
use second::record::{read_record, Item};
use second::start::{start_bytes, start_of};
use std::mem::take;
use std::ops::Range;
use Expression::{Constant, OwnRank, RankCount, Register};
use Operator::{Difference, Equal, Less, Product, Sum};

/// What is made of two operands.
type Made = fn(Expression, Expression) -> Expression;

/// The parts of a program that may be wrong.
#[derive(Clone)]
struct Knobs {
    /// What tokens 13 and 14, 02 and 03, and 01 are taken for.
    equal: Made,
    less: Made,
    own: Expression,
    count: Expression,
    register: fn(usize) -> Expression,
    /// What is taken for the remote rank of a transfer.
    remote: fn(Expression) -> Expression,
    /// The transition numbers, and the remote ranks named by pops, that are refused.
    numbers: Range<usize>,
    names: Range<usize>,
    /// How many numbers from T on are taken, and how many bytes before its own a 5 is placed.
    beyond: usize,
    before: usize,
    /// Which of the free groups, those that were free first in front, comes behind the last placed.
    next: fn(&[usize], Option<usize>) -> usize,
    /// The ring that is told in place of the right one.
    ring: fn(&Graph, &[usize]) -> Vec<usize>,
    /// A kind, and the one whose word is listed for it.
    word: (Kind, Kind),
    /// The entries of both lists that are asked for where so many are needed.
    asks: fn(usize, usize) -> [usize; 2],
    /// The rank whose readings are dropped.
    drops: usize,
}

/// Nothing wrong.
const RIGHT: Knobs = Knobs {
    equal: |first, second| of(Equal, first, second),
    less: |first, second| of(Less, first, second),
    own: OwnRank,
    count: RankCount,
    register: Register,
    remote: |rank| rank,
    numbers: 0..0,
    names: 0..0,
    beyond: 0,
    before: 0,
    next: |free, _| in_rounds(free, None),
    ring: |_, ring| ring.to_vec(),
    word: (Kind::Bar, Kind::Bar),
    asks: |groups, cells| [groups, cells],
    drops: 17,
};

/// Of the free groups the lowest behind the last placed, and if there is none the lowest of all.
fn in_rounds(free: &[usize], last: Option<usize>) -> usize {
    let behind = free.iter().filter(|&&group| Some(group) > last).min();
    *behind.or(free.iter().min()).unwrap_or(&0)
}

/// An operator over two expressions.
fn of(operator: Operator, first: Expression, second: Expression) -> Expression {
    Expression::binary(operator, first, second)
}

/// 1 for 0, and 0 for 1.
fn not(expression: Expression) -> Expression {
    of(Difference, Constant(1), expression)
}

/// 1 if the first is not greater than the second, else 0.
fn at_most(first: Expression, second: Expression) -> Expression {
    not(of(Less, second, first))
}

/// The operand after a sum or product that comes round.
fn round(operator: Operator, operand: Expression, by: u16) -> Expression {
    of(operator, operand, Constant(by)).dated()
}

/// The ring that has in one place the highest number with which it is as short, and in the others
/// the lowest.
fn highest_at(place: usize, graph: &Graph, ring: &[usize]) -> Vec<usize> {
    let steps = steps_to(ring[0], &graph.sources);
    let mut walk = vec![ring[0]];
    for left in (1..ring.len()).rev() {
        let on = graph.targets[walk[walk.len() - 1]].iter().copied();
        let possible: Vec<usize> = on.filter(|&next| steps[next] == Some(left)).collect();
        walk.push(possible[usize::from(walk.len() == place) * (possible.len() - 1)]);
    }
    walk
}

/// The shortest ring through the group in this place among those with one of so many groups, or of
/// any.
fn through(place: usize, graph: &Graph, length: Option<usize>) -> Vec<usize> {
    let rounds = graph.rounds();
    let is_in =
        |&group: &usize| rounds[group].is_some() && rounds[group] == length.or(rounds[group]);
    let group = (0..rounds.len()).filter(is_in).nth(place).unwrap_or(0);
    from_its_lowest(graph.walk(group, rounds[group].unwrap_or(0), |on| on.first()))
}

impl Knobs {
    fn changed(&self, expression: Expression) -> Expression {
        match expression {
            Expression::Binary(operator, first, second) => {
                let made = match operator {
                    Equal => self.equal,
                    Less => self.less,
                    _ => return of(operator, self.changed(*first), self.changed(*second)),
                };
                made(self.changed(*first), self.changed(*second))
            }
            OwnRank => self.own.clone(),
            RankCount => self.count.clone(),
            Register(register) => (self.register)(register),
            other => other,
        }
    }

    fn read_program(&self, program: &[u8]) -> Outcome<Program> {
        let mut program = Program::read(program)?;
        for transition in &mut program.transitions {
            let parts = take(&mut transition.expressions).into_iter();
            transition.expressions = parts.map(|part| self.changed(part)).collect();
            if transition.kind.is_transfer() {
                transition.expressions[1] = (self.remote)(transition.expressions[1].clone());
            }
        }
        let more = program.transitions.iter().take(self.beyond).cloned();
        program.transitions.extend(more.collect::<Vec<_>>());
        Ok(program)
    }

    fn kept(&self, mut start: Start) -> Start {
        let dropped = start.0.iter_mut().skip(self.drops - 1).take(1);
        dropped.for_each(|rank| rank.cells.fill(0));
        start
    }

    fn order(&self, graph: &Graph) -> Vec<usize> {
        let mut left: Vec<usize> = graph.sources.iter().map(Vec::len).collect();
        let mut free: Vec<usize> = (0..left.len()).filter(|&group| left[group] == 0).collect();
        let mut order = Vec::new();
        while !free.is_empty() {
            let group = (self.next)(&free, order.last().copied());
            free.retain(|&other| other != group);
            order.push(group);
            for &target in &graph.targets[group] {
                left[target] -= 1;
                free.extend((left[target] == 0).then_some(target));
            }
        }
        order
    }

    fn accept(&self, program: &[u8], start: &[u8], record: &[u8]) -> Outcome<Accepted> {
        let program = self.read_program(program)?;
        let start = self.kept(start_of(&program, start)?);
        let items = read_record(record, &program).or_else(|fault| match fault.number {
            5 => refuse(5, fault.place.saturating_sub(self.before)),
            number => refuse(number, fault.place),
        })?;
        let refused = |item: &Item| {
            let name = item.act.pop().and_then(|pop| pop.remote).unwrap_or(0);
            let number = item.act.transition().unwrap_or(0);
            self.names.contains(&name) || self.numbers.contains(&number)
        };
        if let Some(item) = items.iter().position(refused) {
            return refuse(5, item);
        }
        let mut accepted = accept_items(program, start, items)?;
        let graph = Graph::of(&accepted);
        accepted.verdict = match &accepted.verdict {
            Verdict::Order(_) => Verdict::Order(self.order(&graph)),
            Verdict::Ring(ring) => Verdict::Ring((self.ring)(&graph, ring)),
        };
        let groups = accepted.grouping.groups.iter_mut();
        let named = groups.filter(|group| group.kind == self.word.0);
        named.for_each(|group| group.kind = self.word.1);
        Ok(accepted)
    }

    /// The check, to which a list seems as much longer as less is asked for than is needed.
    fn check(&self, accepted: Outcome<Accepted>, order: &mut [u8], cells: &mut [u8]) -> Answer {
        let needed = accepted.as_ref().map_or([0, 0], |run| {
            [run.grouping.groups.len(), last_cells(&run.run.last).len()]
        });
        let asked = (self.asks)(needed[0], needed[1]);
        let mut seen = [order.to_vec(), cells.to_vec()];
        for (seen, (needed, asked)) in seen.iter_mut().zip(needed.into_iter().zip(asked)) {
            seen.resize((seen.len() + 2 * needed).saturating_sub(2 * asked), 0);
        }
        let [order_seen, cells_seen] = &mut seen;
        let answer = fill_bytes(accepted, order_seen, cells_seen);
        for (list, seen) in [order, cells].into_iter().zip(seen) {
            let entries = list.iter_mut().zip(seen);
            entries.for_each(|(lent, seen)| *lent = seen);
        }
        answer
    }

    /// Whether check or listing, or a start that is written or read, is another than the case's.
    fn caught_by(&self, case: &Case) -> bool {
        let read = |program: &[u8]| Program::read(program).expect("a start of a program");
        match case {
            Case::Check(case) => {
                let accepted = self.accept(&case.program, &case.start, &case.record);
                let lines = accepted.clone().map(|run| lines_of(&run));
                let check: Subject =
                    &|_, _, _, order, cells| self.check(accepted.clone(), order, cells);
                lines.is_ok_and(|lines| lines != case.listing)
                    || compare_case(&between_guards(check), case).is_err()
            }
            Case::StartWrite(case) => case.answer.as_ref().is_ok_and(|bytes| {
                let start = Start::with_cells(&read(&case.program), &case.cells);
                start_bytes(&self.kept(start)) != *bytes
            }),
            Case::StartRead(case) => case.answer.as_ref().is_ok_and(|cells| {
                let start = start_of(&read(&case.program), &case.start).expect("a start");
                self.kept(start).cells() != *cells
            }),
            Case::Slip(_) => false,
        }
    }
}

/// A mistake, the case that catches it, and what it changes.
type Mistake = (&'static str, &'static str, fn(&mut Knobs));

/// Lines of what is wrong, the case, the knob and what it is turned to.
macro_rules! mistakes {
    ($($what:literal, $case:literal: $knob:ident = $to:expr;)*) => {
        &[$(($what, $case, |knobs| knobs.$knob = $to)),*]
    };
}

const MISTAKES: &[Mistake] = mistakes! {
    "14 as at most, stored", "points-stored-own-less-own": less = at_most;
    "14 as at most, a cell", "points-addressed-own-less-own": less = at_most;
    "14 as at most, assumed", "points-9-assumed-own-less-own-at-3": less = at_most;
    "14 the other way round", "points-stored-n-less-own": less = |a, b| of(Less, b, a);
    "14 of signed numbers", "points-stored-32767-less-32768":
        less = |a, b| of(Less, round(Sum, a, 32_768), round(Sum, b, 32_768));
    "14 of low bytes", "points-stored-255-less-256":
        less = |a, b| of(Less, round(Product, a, 256), round(Product, b, 256));
    "14 as 13", "points-assumed-own-less-n": less = |a, b| of(Equal, a, b);
    "13 as 14", "points-assumed-own-equals-2": equal = |a, b| of(Less, a, b);
    "13 the other way round", "points-addressed-own-equals-2": equal = |a, b| not(of(Equal, a, b));
    "13 as at most", "points-9-assumed-own-equals-n-at-3": equal = at_most;
    "13 as at least", "points-9-assumed-n-equals-own-at-3": equal = |a, b| not(of(Less, a, b));
    "13 of low bytes", "points-stored-261-equals-register-3":
        equal = |a, b| of(Equal, round(Product, a, 256), round(Product, b, 256));
    "02 as N", "points-stored-own": own = RankCount;
    "02 as 1", "points-addressed-own": own = Constant(1);
    "03 as the own rank", "points-stored-n": count = OwnRank;
    "03 as 16", "points-addressed-n": count = Constant(16);
    "01 as register 0", "points-stored-register-3": register = |_| Register(0);
    "01 as its number", "points-addressed-register-3": register = |number| Constant(number as u16);
    "01 as 0", "points-assumed-register-3": register = |_| Constant(0);
    "ring from the second lowest group", "points-rings-0-2-and-1-3":
        ring = |graph, ring| through(1, graph, Some(ring.len()));
    "ring from the lowest group", "points-rings-0-2-4-6-and-1-3-5":
        ring = |graph, _| through(0, graph, None);
    "highest second number", "points-second-number-of-rank-1": ring = |g, r| highest_at(1, g, r);
    "highest third number", "points-second-and-third-number": ring = |g, r| highest_at(2, g, r);
    "highest fourth number", "points-fourth-number-of-5": ring = |g, r| highest_at(3, g, r);
    "groups passed over placed last", "points-order-freed-by-1": next = in_rounds;
    "the group free first", "points-order-freed-by-5": next = |free, _| free[0];
    "the group free last", "points-order-freed-in-a-chain": next = |free, _| free[free.len() - 1];
    "129 to 255 refused", "points-transition-200-of-300": numbers = 129..256;
    "255 refused", "points-transition-255-of-300": numbers = 255..256;
    "256 refused", "points-transition-256-of-300": numbers = 256..257;
    "257 to 399 refused", "points-transition-257-of-300": numbers = 257..400;
    "300 to 398 refused", "points-transition-300-of-400": numbers = 300..399;
    "399 refused", "points-transition-399-of-400": numbers = 399..400;
    "129 taken of 129", "points-5-assign-129-of-129-at-5": beyond = 1;
    "256 taken of 256", "points-5-assign-256-of-256-at-6": beyond = 1;
    "300 taken of 300", "points-5-store-300-of-300-at-11": beyond = 1;
    "400 taken of 400", "points-5-store-400-of-400-at-11": beyond = 1;
    "300 of 300 placed before its high byte", "points-5-second-300-of-300-at-15": before = 1;
    "high byte 0 placed before", "points-5-assign-200-with-high-0-of-300-at-6": before = 1;
    "names above 8 refused", "points-write-to-9-of-16-named": names = 9..17;
    "a name of 16 refused", "points-read-from-16-of-16-named": names = 16..17;
    "a name of 17 placed before", "points-5-popb-named-17-of-16-at-20": before = 1;
    "remote ranks above 8 refused", "points-read-from-9-of-16":
        remote = |rank| of(Product, of(Less, rank.clone(), Constant(9)), rank);
    "remote rank 17 taken as 16", "points-8-write-to-17-of-16-at-3":
        remote = |rank| of(Difference, rank.clone(), of(Equal, rank, Constant(17)));
    "assume as assign", "points-listed-ring-with-assume": word = (Kind::Assume, Kind::Assign);
    "assign as assume", "points-listed-ring-with-read": word = (Kind::Assign, Kind::Assume);
    "read as write", "points-listed-each-kind": word = (Kind::Read, Kind::Write);
    "one group more asked", "points-fit-1-lists-1-1": asks = |g, c| [g + 1, c];
    "one group less asked", "points-14-fit-ring-at-4-lists-3-2": asks = |g, c| [g.max(1) - 1, c];
    "groups asked in a byte", "points-14-fit-256-at-256-lists-255-256": asks = |g, c| [g % 256, c];
    "and in ten bits", "points-14-fit-1024-at-1024-lists-1023-1": asks = |g, c| [g % 1024, c];
    "one cell more asked", "points-fit-0-lists-0-1": asks = |g, c| [g, c + 1];
    "one cell less asked", "points-15-fit-2-at-2-lists-2-1": asks = |g, c| [g, c.max(1) - 1];
    "cells asked in a byte", "points-15-fit-256-at-256-lists-256-255": asks = |g, c| [g, c % 256];
    "readings of rank 2 dropped", "points-only-rank-2-of-2": drops = 2;
    "in what is written", "start-write-only-rank-2-of-16-exact": drops = 2;
    "in what is read", "start-read-only-rank-2-of-3-exact": drops = 2;
    "readings of rank 16 dropped", "points-only-rank-16-of-16": drops = 16;
    "in what is written", "start-write-only-rank-16-of-16-exact": drops = 16;
    "in what is read", "start-read-only-rank-16-of-16-exact": drops = 16;
};

#[test]
fn nothing_wrong_is_not_caught() {
    let caught = cases().iter().find(|case| RIGHT.caught_by(case));
    assert_eq!(caught.map(Case::name), None);
}

#[test]
fn each_mistake_is_caught_by_the_case_for_it() {
    for (what, name, change) in MISTAKES {
        let mut knobs = RIGHT;
        change(&mut knobs);
        let case = cases().iter().find(|case| case.name() == *name);
        let caught = case.map(|case| knobs.caught_by(case));
        assert_eq!(caught, Some(true), "{what}: {name}");
    }
    println!(
        "{} mistakes, each caught by the case for it",
        MISTAKES.len()
    );
}
