//! Records written down in words, with the programs that their commands need.

use super::parts::{
    assign, assume, at, bar, command, from_queue, giving, load, on_queue, popa, popb, read, store,
    with_operand, write,
};
use super::row::{cells_with, Row};
use crate::corpus::Expected;
use crate::expression::Expression;
use crate::program::{Program, Transition};
use crate::record::Item;

/// A transfer that waits.
#[derive(Debug, Clone, Copy)]
struct Waiting {
    /// Its group.
    group: usize,
    /// Its popa, until it is fetched.
    fetch: Option<Item>,
    /// Its popb.
    delivery: Item,
}

/// A record in the making. There are as many ranks and cells as words name. Each command has the
/// next group number, and a row has one. Words are:
///
/// - `i2*3`: rank 2 idles three times, `i2` once; nobody sees that;
/// - `s2.0` and `s2.0=7`: rank 2 stores 0, or 7, in its cell 0;
/// - `l2.1` and `l2.1=7`: rank 2 loads its cell 1, and the item gives the value 7;
/// - `a2`: rank 2 assumes what it loaded;
/// - `w1.0>2.1`: rank 1 writes its cell 0 to cell 1 of rank 2, on queue 0;
/// - `r1.1<2.0`: rank 1 reads into its cell 1 from cell 0 of rank 2, on queue 1;
/// - `b`: a row;
/// - `f`, `d` and `c`: all transfers that wait are fetched, delivered, or carried, which is both, in
///   the order of their issue; `c3`: the one of group 3 is carried, and `n` the newest;
/// - `k2*3`: a knot of three groups: rank 2 writes its cell 0 to its cell 1, idles, and stores in
///   cell 0 before the fetch. Program order leads from the write along all of these to the store,
///   and the store leads back: a ring.
#[derive(Debug, Clone)]
pub struct Script {
    /// The program, with the transitions of the commands so far.
    pub program: Program,
    /// The items so far.
    pub items: Vec<Item>,
    /// The groups so far.
    groups: usize,
    /// The transfers that wait.
    waiting: Vec<Waiting>,
}

impl Script {
    /// The record of these words.
    pub fn of(text: &str) -> Script {
        Script::with_ranks(1, text)
    }

    /// The same with at least so many ranks.
    pub fn with_ranks(ranks: usize, text: &str) -> Script {
        let program = Program {
            ranks,
            cells: 1,
            registers: 1,
            queues: 2,
            states: 1,
            transitions: Vec::new(),
        };
        let mut script = Script {
            program,
            items: Vec::new(),
            groups: 0,
            waiting: Vec::new(),
        };
        let words: Vec<(&str, Vec<usize>)> = text.split_whitespace().map(parts).collect();
        words
            .iter()
            .for_each(|(word, numbers)| script.make_room(word, numbers));
        words
            .iter()
            .for_each(|(word, numbers)| script.add(word, numbers));
        script
    }

    /// Makes the program large enough for the ranks and cells of a word.
    fn make_room(&mut self, word: &str, numbers: &[usize]) {
        let places = match word {
            "i" | "a" => &[numbers[0], 0],
            "s" | "l" => &numbers[..2],
            "k" => &[numbers[0], 1],
            "w" | "r" => numbers,
            _ => return,
        };
        for place in places.chunks_exact(2) {
            self.program.ranks = self.program.ranks.max(place[0]);
            self.program.cells = self.program.cells.max(place[1] + 1);
        }
    }

    /// Adds what a word says.
    fn add(&mut self, word: &str, numbers: &[usize]) {
        let small = |place: usize| numbers[place] as u16;
        match (word, numbers.len()) {
            ("i", 1) => self.add_command(numbers[0], assign(1), None, None),
            ("i", _) => (0..numbers[1]).for_each(|_| self.add("i", &numbers[..1])),
            ("s", length) => {
                let value = if length > 2 { small(2) } else { 0 };
                self.add_command(numbers[0], store(small(1), value), Some(numbers[1]), None);
            }
            ("l", length) => {
                let value = (length > 2).then(|| small(2));
                self.add_command(numbers[0], load(small(1)), Some(numbers[1]), value);
            }
            ("a", _) => {
                let loaded = with_operand(assume(0), 0, Expression::Register(0));
                self.add_command(numbers[0], loaded, None, None);
            }
            ("w" | "r", _) => self.add_transfer(word == "r", numbers),
            ("k", _) => self.add_knot(numbers[0], numbers[1] - 2),
            ("b", _) => {
                (1..=self.program.ranks).for_each(|rank| self.add_command(rank, bar(), None, None));
                self.groups -= self.program.ranks - 1;
            }
            ("n", _) => self.add_pops("c", self.waiting.last().map(|newest| newest.group)),
            _ => self.add_pops(word, numbers.first().copied()),
        }
    }

    /// A rank takes a transition, which is added to the program if it is new.
    fn add_command(
        &mut self,
        rank: usize,
        transition: Transition,
        cell: Option<usize>,
        value: Option<u16>,
    ) {
        let kind = transition.kind;
        let transitions = &mut self.program.transitions;
        let there = transitions.iter().position(|old| *old == transition);
        let number = there.unwrap_or_else(|| {
            transitions.push(transition);
            transitions.len() - 1
        });
        let plain = command(kind, rank, number);
        let placed = cell.map_or(plain, |cell| at(plain, cell));
        self.items
            .push(value.map_or(placed, |value| giving(placed, value)));
        self.groups += 1;
    }

    /// A rank issues a read or a write.
    fn add_transfer(&mut self, reads: bool, numbers: &[usize]) {
        let (own, remote) = ((numbers[0], numbers[1]), (numbers[2], numbers[3]));
        let [cell, rank, remote_cell] = [own.1, remote.0, remote.1].map(|number| number as u16);
        let (transition, source, destination) = if reads {
            let read = read(cell, rank, remote_cell);
            (on_queue(read, 1), remote, own)
        } else {
            (write(cell, rank, remote_cell), own, remote)
        };
        let queue = usize::from(reads);
        self.waiting.push(Waiting {
            group: self.groups,
            fetch: Some(from_queue(popa(own.0, source), queue)),
            delivery: from_queue(popb(own.0, destination), queue),
        });
        self.add_command(own.0, transition, None, None);
    }

    /// A knot with so many idle commands.
    fn add_knot(&mut self, rank: usize, idle: usize) {
        let group = self.groups;
        self.add("w", &[rank, 0, rank, 1]);
        self.add("i", &[rank, idle]);
        self.add("s", &[rank, 0]);
        self.add_pops("c", Some(group));
    }

    /// Fetches, delivers or carries the transfer of a group, or all.
    fn add_pops(&mut self, word: &str, group: Option<usize>) {
        let (items, fetches) = (&mut self.items, word != "d");
        self.waiting.retain_mut(|transfer| {
            if group.is_some_and(|group| group != transfer.group) {
                return true;
            }
            items.extend(transfer.fetch.take_if(|_| fetches));
            items.extend((word != "f").then_some(transfer.delivery));
            word == "f"
        });
    }
}

/// A word's letter and the numbers in it.
fn parts(word: &str) -> (&str, Vec<usize>) {
    let (letter, rest) = word.split_at(1);
    let numbers = rest.split(|character: char| !character.is_ascii_digit());
    (
        letter,
        numbers.filter_map(|number| number.parse().ok()).collect(),
    )
}

/// The rows of a family that a text has, one a line: a name, the words of the record, and its ring,
/// or its order in brackets, with colons between. All cells are 0. Empty lines, and those that begin
/// with `#`, are skipped.
pub fn rows_of(family: &str, text: &str) -> Vec<Row> {
    let is_case = |line: &&str| !line.is_empty() && !line.starts_with('#');
    let lines = text.lines().filter(is_case);
    lines.map(|line| row_of(family, line)).collect()
}

/// The row of a line.
fn row_of(family: &str, line: &str) -> Row {
    let mut fields = line.split(':');
    let [name, words, answer] = [0; 3].map(|_: u8| fields.next().expect("a case has three fields"));
    let numbers = answer.split(|character: char| !character.is_ascii_digit());
    let groups = numbers.filter_map(|number| number.parse().ok()).collect();
    let answer = if answer.contains('(') {
        Expected::Order(groups)
    } else {
        Expected::Ring(groups)
    };
    let Script { program, items, .. } = Script::of(words);
    let last = cells_with(&program, &[]);
    Row::accepted(family, name, (&program, &items), answer, last)
}
