//! What was tried of #112, and how often.

use super::exchange::Pair;
use super::Held;
use crate::check::Accepted;
use crate::generator::names_remote;
use crate::limits::MAX_SHORT_MAP_RANKS;
use crate::order::Verdict;
use crate::program::Kind;
use crate::record::{Act, Cell, Item};
use std::collections::BTreeMap;
use std::fmt;

/// The ways in which an input comes about: the record itself, three kinds of neighbours exchanged,
/// many exchanged in turn, items moved, the order written out as a plain run, and another start.
pub const WAYS: [&str; 8] = [
    RECORD, "commands", "mixed", "pops", IN_TURN, MOVED, PLAIN, START,
];
/// A record as it was generated.
pub const RECORD: &str = "records";
/// Neighbours exchanged one pair after the other.
pub const IN_TURN: &str = "in turn";
/// Items moved past each other in all ways that keep the trace.
pub const MOVED: &str = "moved";
/// The subject's order, written out.
pub const PLAIN: &str = "plain";
/// Another start.
pub const START: &str = "starts";

/// What is counted each time.
const TRIED: &str = "tried";

/// How often each thing was seen of inputs that came about in each way.
#[derive(Debug, Default, Clone, PartialEq, Eq)]
pub struct Tried(pub BTreeMap<&'static str, BTreeMap<&'static str, usize>>);

/// Whether something is seen, and its name.
type Fact = (bool, &'static str);

/// What a run is by itself.
fn facts_of(accepted: &Accepted) -> Vec<Fact> {
    let any = |holds: fn(&Item) -> bool| accepted.items.iter().any(holds);
    let groups = accepted.verdict.groups();
    let is_ring = matches!(accepted.verdict, Verdict::Ring(_));
    let is_high = |item: &Item| item.act.transition() >= Some(256);
    let many = accepted.program.ranks > MAX_SHORT_MAP_RANKS;
    let cells = accepted.start.cells();
    vec![
        (!is_ring && groups.is_empty(), "order of no groups"),
        (!is_ring && !groups.is_empty(), "order"),
        (is_ring, "ring"),
        (is_ring && groups.len() > 2, "ring of more than two"),
        (any(names_remote), "named pops"),
        (any(is_bar), "rows"),
        (any(is_valued), "values"),
        (any(is_high), "transitions from 256 on"),
        (many, "more than eight ranks"),
        (accepted.items.len() > 100, "more than 100 items"),
        (cells.iter().any(|&value| value != 0), "readings"),
    ]
}

/// Whether an item is a bar.
fn is_bar(item: &Item) -> bool {
    item.act.kind() == Kind::Bar
}

/// Whether an item gives a value.
fn is_valued(item: &Item) -> bool {
    item.value.is_some()
}

/// What the items do and where, those of each rank in their order, without names of pops.
fn by_rank(items: &[Item]) -> Vec<(Act, Option<Cell>)> {
    let mut sorted: Vec<_> = items
        .iter()
        .map(|item| (item.act.unnamed(), item.place))
        .collect();
    sorted.sort_by_key(|(act, _)| act.rank());
    sorted
}

impl Tried {
    /// Counts something so many times.
    pub fn add(&mut self, way: &'static str, what: &'static str, times: usize) {
        *self.0.entry(what).or_default().entry(way).or_default() += times;
    }

    /// Counts an input and the facts that hold of it.
    fn count(&mut self, way: &'static str, facts: impl IntoIterator<Item = Fact>) {
        self.add(way, TRIED, 1);
        for (_, what) in facts.into_iter().filter(|(holds, _)| *holds) {
            self.add(way, what, 1);
        }
    }

    /// Counts a record.
    pub fn count_record(&mut self, accepted: &Accepted) {
        self.count(RECORD, facts_of(accepted));
    }

    /// Counts another record of the same trace, of which more facts may hold.
    pub fn count_other(&mut self, way: &'static str, held: &Held, other: &Held, more: &[Fact]) {
        let listed = held.observed.order != other.observed.order;
        let moved = by_rank(&held.accepted.items) != by_rank(&other.accepted.items);
        let differs = [
            (held.input.record != other.input.record, "other bytes"),
            (moved, "moved within a rank"),
            (listed, "groups listed otherwise"),
        ];
        let facts = facts_of(&held.accepted).into_iter().chain(differs);
        self.count(way, facts.chain(more.iter().copied()));
    }

    /// Counts an exchange of the items that now stand at this place and the next.
    pub fn count_exchange(&mut self, held: &Held, other: &Held, items: &[Item], at: usize) {
        let [one, two] = [items[at], items[at + 1]];
        let pair = [&one, &two];
        let mut beside = items[..at].last().into_iter().chain(items.get(at + 2));
        let accesses = one.place.zip(two.place);
        let at_cells = |holds: fn(bool, bool) -> bool| {
            accesses.is_some_and(|(one, two)| holds(one.rank == two.rank, one.cell == two.cell))
        };
        let facts = [
            (beside.any(is_bar), "beside a row"),
            (pair.into_iter().any(names_remote), "one of the two named"),
            (pair.into_iter().any(is_valued), "one of the two valued"),
            (accesses.is_some(), "two accesses"),
            (at_cells(|rank, cell| rank && cell), "two reads of one cell"),
            (
                at_cells(|rank, cell| !rank && cell),
                "one number, two cells",
            ),
        ];
        self.count_other(Pair::of(&one, &two).words(), held, other, &facts);
    }

    /// Counts another start.
    pub fn count_start(&mut self, held: &Held, other: &Held) {
        let (before, after) = (held.accepted.start.cells(), other.accepted.start.cells());
        let (ranks, cells) = (held.accepted.program.ranks, held.accepted.program.cells);
        let differs = |at: &usize| before[*at] != after[*at];
        let changed: Vec<usize> = (0..before.len()).filter(differs).collect();
        let any = |holds: &dyn Fn(usize) -> bool| changed.iter().any(|&at| holds(at));
        let differs = [
            (changed.is_empty(), "the same cells"),
            (changed.len() == 1, "one cell"),
            (any(&|at| after[at] == 0), "a reading taken away"),
            (any(&|at| after[at] == 65_535), "a reading of 65,535"),
            (any(&|at| at % cells == 0), "a first cell"),
            (any(&|at| at % cells == cells - 1), "a last cell"),
            (any(&|at| at / cells == 0), "a cell of the first rank"),
            (
                any(&|at| at / cells + 1 == ranks),
                "a cell of the last rank",
            ),
            (held.input.start.is_empty(), "from no bytes"),
            (other.input.start.is_empty(), "to no bytes"),
        ];
        self.count(START, facts_of(&held.accepted).into_iter().chain(differs));
    }
}

impl fmt::Display for Tried {
    fn fmt(&self, out: &mut fmt::Formatter) -> fmt::Result {
        write!(out, "{:24}", "")?;
        WAYS.iter().try_for_each(|way| write!(out, "{way:>9}"))?;
        let (first, others) = self
            .0
            .iter()
            .partition::<Vec<_>, _>(|(&what, _)| what == TRIED);
        for (what, ways) in first.into_iter().chain(others) {
            write!(out, "\n{what:24}")?;
            for way in WAYS {
                let times = ways.get(way).map_or("-".into(), usize::to_string);
                write!(out, "{times:>9}")?;
            }
        }
        writeln!(out)
    }
}
