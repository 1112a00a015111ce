//! A subject that does not hold to #112 must be caught by what it says itself of two inputs, and not
//! only by an answer that is wrong alone.

mod common;

use common::graph::Graph;
use second::check::{accept, accept_items, check_bytes, fill_bytes, Accepted};
use second::extras::{slip_written, Extras, Functions, Told, Writer, SECOND};
use second::families::former_ring::former_groups;
use second::forms::hold::Readers;
use second::groups::{arrows, arrows_of, conflicts, program_order, Pairs};
use second::harness::{between_guards, Subject};
use second::limits::{refuse, Outcome};
use second::machine::{Machine, RankStart, Start, Step};
use second::one_trace::hold;
use second::one_trace::starts::never_accessed;
use second::one_trace::tried::Tried;
use second::order::{decide, Verdict};
use second::record::Act;
use std::collections::BTreeMap;

/// Records that a wrong subject has to be caught within.
const RECORDS: u64 = 1_500;
/// The seed of those records.
const SEED: u64 = 12;

/// Said of a subject: its answers on one trace differ.
const KIND: &str = "another kind of answer or another count for the same trace\n";
/// Said of a subject: of two lists for one trace, one is not the first by number.
const LIST: &str = "with the other's numbers its groups come first for the same trace\n";
/// Said of a subject: its cells for one trace differ.
const CELLS: &str = "other last cells for the same trace\n";
/// Said of a subject: its slips for one trace differ.
const SLIP: &str = "another slip for the same trace\n";
/// Said of a subject: it refuses what it must accept.
const REFUSED: &str = "refused ";
/// Said of a subject: its lists from two starts differ.
const START_LIST: &str = "another order or ring from a start that no access tells apart\n";
/// Said of a subject: its cells from two starts differ, or not where they should.
const START_CELLS: &str = "other last cells from a start that no access tells apart\n";
/// Said of a subject: its slips from two starts differ.
const START_SLIP: &str = "another slip from a start that no access tells apart\n";
/// Said of a subject: its slip writer refuses what its check accepts.
const NO_SLIP: &str = "no slip, but the check accepts the record\n";

/// The first record beside which this is said of a subject because of another input; what is said
/// of the record alone does not count.
fn first_caught(check: Subject, write_slip: Writer, words: &str) -> Option<u64> {
    let functions = Functions {
        write_slip,
        ..SECOND
    };
    let readers = Readers {
        check: &between_guards(check),
        extras: &Extras::between_guards(functions),
    };
    let is_caught = |index: &u64| {
        let fault = hold(&readers, SEED, *index, &mut Tried::default()).err();
        let both = |fault: &String| fault.contains("\nbeside\nprogram ");
        fault.is_some_and(|fault| fault.starts_with(words) && both(&fault))
    };
    (0..RECORDS).find(is_caught)
}

/// What a wrong program makes of what it should accept.
type Mistake<'a> = &'a dyn Fn(Accepted) -> Outcome<Accepted>;

/// Fails unless a check with this mistake is caught with these words.
fn assert_caught(words: &str, mistake: Mistake) {
    let check: Subject = &|program, start, record, order, cells| {
        fill_bytes(
            accept(program, start, record).and_then(mistake),
            order,
            cells,
        )
    };
    let caught = first_caught(check, &slip_written, words);
    println!(
        "{words}caught by record {}",
        caught.expect("it must be caught")
    );
}

/// Fails unless a check that draws its arrows so is caught with these words.
fn assert_arrows_caught(words: &str, draw: &dyn Fn(&[Step], &[usize]) -> Pairs) {
    assert_caught(words, &|mut accepted| {
        let drawn = draw(&accepted.run.steps, &accepted.grouping.group_of);
        accepted.verdict = decide(accepted.grouping.groups.len(), &drawn);
        Ok(accepted)
    });
}

/// Fails unless a check that gives rings so is caught with these words.
fn assert_rings_caught(words: &str, ring_of: &dyn Fn(&Accepted, &[usize]) -> Vec<usize>) {
    assert_caught(words, &|mut accepted| {
        if let Verdict::Ring(ring) = &accepted.verdict {
            accepted.verdict = Verdict::Ring(ring_of(&accepted, ring));
        }
        Ok(accepted)
    });
}

/// Fails unless a check that begins from what this makes of a start is caught with these words.
fn assert_starts_caught(words: &str, change: fn(&mut [RankStart])) {
    assert_caught(words, &|Accepted {
                               program,
                               start: Start(mut ranks),
                               items,
                               ..
                           }| {
        change(&mut ranks);
        accept_items(program, Start(ranks), items)
    });
}

/// The arrows with more of them between the groups of these items.
fn with_more(steps: &[Step], group_of: &[usize], more: &Pairs) -> Pairs {
    let mut all = arrows(steps, group_of);
    all.extend(arrows_of(more, group_of));
    all
}

/// Each item with the one before it that has the same key, if it has one.
fn with_latest<Key: Ord>(steps: &[Step], key: impl Fn(&Step) -> Option<Key>) -> Pairs {
    let mut latest = BTreeMap::new();
    let keyed = steps.iter().enumerate();
    keyed
        .filter_map(|(item, step)| Some((latest.insert(key(step)?, item)?, item)))
        .collect()
}

#[test]
fn a_right_subject_is_not_caught() {
    assert_eq!(first_caught(&check_bytes, &slip_written, ""), None);
}

#[test]
fn a_ring_by_the_order_of_items() {
    assert_rings_caught(KIND, &|accepted, _| former_groups(accepted));
    assert_rings_caught(LIST, &|accepted, ring| {
        Graph::of(accepted).walk(ring[0], ring.len(), |possible| possible.last())
    });
    assert_rings_caught(LIST, &|accepted, ring| {
        let mut listed = ring.to_vec();
        listed.sort_by_key(|&group| accepted.grouping.groups[group].items.last());
        listed
    });
}

#[test]
fn a_count_by_the_order_of_items() {
    assert_caught(KIND, &|mut accepted| {
        let is_last = accepted
            .items
            .last()
            .is_some_and(|item| item.act.rank() == 1);
        if let (true, Verdict::Order(order)) = (is_last, &mut accepted.verdict) {
            order.pop();
        }
        Ok(accepted)
    });
    assert_rings_caught(KIND, &|_, ring| {
        let before = ring[0].checked_sub(1);
        ring.iter().copied().chain(before).collect()
    });
}

#[test]
fn the_highest_free_group_first() {
    assert_caught(LIST, &|mut accepted| {
        let count = accepted.grouping.groups.len();
        let turned = arrows(&accepted.run.steps, &accepted.grouping.group_of);
        let turned = turned
            .iter()
            .map(|&(from, to)| (count - 1 - from, count - 1 - to));
        if let Verdict::Order(order) = decide(count, &turned.collect()) {
            let back = order.iter().map(|group| count - 1 - group);
            accepted.verdict = Verdict::Order(back.collect());
        }
        Ok(accepted)
    });
}

#[test]
fn arrows_between_neighbouring_items() {
    assert_arrows_caught(KIND, &|steps, group_of| {
        with_more(steps, group_of, &with_latest(steps, |_| Some(())))
    });
}

#[test]
fn arrows_between_reads() {
    assert_arrows_caught(KIND, &|steps, group_of| {
        let reads = |step: &Step| step.access.filter(|access| !access.writes);
        let pairs = with_latest(steps, |step| reads(step).map(|access| access.cell));
        with_more(steps, group_of, &pairs)
    });
}

#[test]
fn arrows_between_accesses_of_one_cell_number() {
    assert_arrows_caught(KIND, &|steps, group_of| {
        let pairs = with_latest(steps, |step| step.access.map(|access| access.cell.cell));
        with_more(steps, group_of, &pairs)
    });
}

#[test]
fn arrows_that_only_items_of_one_rank_show() {
    // neighbours of different ranks keep these; items moved within a rank do not
    assert_arrows_caught(KIND, &|steps, group_of| {
        let pairs = with_latest(steps, |step| Some(step.act.rank()));
        with_more(steps, group_of, &pairs)
    });
    assert_arrows_caught(KIND, &|steps, group_of| {
        let queue = |step: &Step| match step.act {
            Act::PopB(pop) => Some((pop.rank, pop.queue)),
            _ => None,
        };
        with_more(steps, group_of, &with_latest(steps, queue))
    });
}

#[test]
fn conflicts_not_seen_from_afar() {
    assert_arrows_caught(KIND, &|steps, group_of| {
        let near = conflicts(steps);
        let near = near.into_iter().filter(|(one, other)| other - one < 3);
        let mut all = arrows_of(&program_order(steps), group_of);
        all.extend(arrows_of(&near.collect(), group_of));
        all
    });
}

#[test]
fn cells_without_the_last_item() {
    assert_caught(CELLS, &|mut accepted| {
        let mut machine = Machine::new(&accepted.program, &accepted.start);
        let but_last = accepted.items.len().saturating_sub(1);
        for item in &accepted.items[..but_last] {
            let step = machine.step(&accepted.program, item);
            step.expect("the record is accepted");
        }
        accepted.run.last = machine;
        Ok(accepted)
    });
}

#[test]
fn cells_by_the_order_of_items() {
    assert_caught(CELLS, &|mut accepted| {
        let first = accepted.items.first().map_or(1, |item| item.act.rank());
        accepted.run.last.ranks.rotate_left(first - 1);
        Ok(accepted)
    });
}

#[test]
fn an_order_of_items_refused() {
    assert_caught(REFUSED, &|accepted| {
        let falls = accepted.items.windows(2).take(3).any(|pair| {
            let [one, other] = [pair[0].act, pair[1].act];
            one.pop().is_some() && other.pop().is_some() && one.rank() > other.rank()
        });
        if falls {
            return refuse(10, 1);
        }
        Ok(accepted)
    });
}

#[test]
fn cells_never_accessed_told_otherwise() {
    for kept in [0, 255] {
        assert_caught(START_CELLS, &|mut accepted| {
            let cells = accepted.program.cells;
            for at in never_accessed(&accepted) {
                accepted.run.last.ranks[at / cells].cells[at % cells] &= kept;
            }
            Ok(accepted)
        });
    }
}

#[test]
fn readings_in_wrong_places() {
    assert_starts_caught(START_CELLS, |ranks| ranks.rotate_left(1));
    assert_starts_caught(START_CELLS, |ranks| ranks.reverse());
    let turned: fn(&mut [RankStart]) =
        |ranks| ranks.iter_mut().for_each(|rank| rank.cells.reverse());
    assert_starts_caught(START_CELLS, turned);
    assert_starts_caught(REFUSED, turned);
    assert_starts_caught(REFUSED, |ranks| {
        for rank in ranks {
            rank.registers[0] = rank.cells[0];
        }
    });
}

#[test]
fn readings_not_taken() {
    assert_caught(REFUSED, &|accepted| {
        let cells = accepted.start.cells();
        if cells.contains(&65_535) {
            return refuse(19, 0);
        }
        Ok(accepted)
    });
    assert_starts_caught(START_CELLS, |ranks| {
        let idle = ranks.iter_mut().filter(|rank| rank.cells[0] == 0);
        idle.for_each(|rank| rank.cells.fill(0));
    });
}

#[test]
fn an_order_or_ring_by_the_start() {
    assert_caught(START_LIST, &|mut accepted| {
        let readings = accepted.start.cells().iter().any(|&value| value != 0);
        if let (true, Verdict::Ring(ring)) = (readings, &accepted.verdict) {
            accepted.verdict = Verdict::Order(ring.clone());
        }
        Ok(accepted)
    });
    assert_caught(START_LIST, &|mut accepted| {
        let first = accepted.start.0[0].cells[0];
        if let (true, Verdict::Order(order)) = (first > 1, &mut accepted.verdict) {
            order.reverse();
        }
        Ok(accepted)
    });
}

/// Fails unless a slip writer that writes a slip and then does this with it is caught with these
/// words.
fn assert_slips_caught(words: &str, change: &dyn Fn(&Accepted, &mut [u8], &mut Told)) {
    let write_slip: Writer = &|program, start, record, memory| {
        let mut told = slip_written(program, start, record, memory);
        if let Ok(accepted) = accept(program, start, record) {
            change(&accepted, memory, &mut told);
        }
        told
    };
    let caught = first_caught(&check_bytes, write_slip, words);
    println!(
        "{words}caught by record {}",
        caught.expect("it must be caught")
    );
}

#[test]
fn slips_by_the_order_of_items_or_by_the_start() {
    assert_slips_caught(SLIP, &|accepted, memory, _| {
        memory[0] ^= accepted.items.last().map_or(0, |item| item.act.rank()) as u8;
    });
    assert_slips_caught(SLIP, &|accepted, _, told| {
        told.value += accepted.items.first().map_or(0, |item| item.act.rank());
    });
    assert_slips_caught(START_SLIP, &|accepted, memory, _| {
        let is_read = |rank: &&RankStart| rank.cells.iter().any(|&value| value != 0);
        memory[0] ^= accepted.start.0.iter().filter(is_read).count() as u8;
    });
    assert_slips_caught(NO_SLIP, &|accepted, _, told| {
        if accepted.start.cells().contains(&65_535) {
            told.number = 19;
        }
    });
}
