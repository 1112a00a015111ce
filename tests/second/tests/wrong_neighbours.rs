//! The harness must catch a subject whose pops choose their entry in a wrong way: #108.

mod common;

use common::{
    assert_caught, assert_caught_and_misjudged, check_by, first_caught, first_misjudged, refused,
};
use second::check::{check_bytes, Answer};
use second::generator::names_remote;
use second::harness::Subject;
use second::limits::Refusal;
use second::machine::{Machine, Step};
use second::program::Program;
use second::record::{fields, items_of, read_record, Act, Cell, Item};

/// What is known of an entry that waits.
#[derive(Clone, Copy)]
struct Waiting {
    /// Its remote rank.
    remote: usize,
    /// The rank that it is delivered to.
    destination: usize,
    /// How many commands its rank took before it was issued.
    issued: usize,
    /// The cell that a pop of it accesses.
    place: Cell,
}

/// A pop in the making: the item, and the entries that wait where it takes one from.
struct Chance<'a> {
    /// The item.
    item: &'a Item,
    /// The rank that it names.
    named: Option<usize>,
    /// The entries, the first appended first.
    waiting: &'a [Waiting],
}

impl Chance<'_> {
    /// The first of the entries that fit.
    fn first(&self, fits: impl Fn(&Waiting) -> bool) -> Result<usize, u8> {
        self.waiting.iter().position(fits).ok_or(10)
    }

    /// The last of the entries that fit.
    fn last(&self, fits: impl Fn(&Waiting) -> bool) -> Result<usize, u8> {
        self.waiting.iter().rposition(fits).ok_or(10)
    }

    /// Whether an entry is for the named rank, or no rank is named.
    fn fits(&self, entry: &Waiting) -> bool {
        self.named.is_none_or(|named| named == entry.remote)
    }

    /// The right entry.
    fn right(&self) -> Result<usize, u8> {
        self.first(|entry| self.fits(entry))
    }
}

/// How a program chooses the entry of a pop, or refuses it.
type Choice = fn(&Chance) -> Result<usize, u8>;

/// The entries that wait where a pop takes one from.
fn waiting(machine: &Machine, act: Act) -> Vec<Waiting> {
    match act {
        Act::Command { .. } => Vec::new(),
        Act::PopA(pop) => {
            let requests = machine.rank(pop.rank).requests[pop.queue].iter();
            let known = requests.map(|request| Waiting {
                remote: request.remote,
                destination: request.destination.rank,
                issued: request.command.place,
                place: request.source,
            });
            known.collect()
        }
        Act::PopB(pop) => {
            let deliveries = machine.rank(pop.rank).deliveries[pop.queue].iter();
            let known = deliveries.map(|delivery| Waiting {
                remote: delivery.remote,
                destination: delivery.destination.rank,
                issued: delivery.command.place,
                place: delivery.destination,
            });
            known.collect()
        }
    }
}

/// Puts the chosen entry of a pop's queue first, the others keeping their order.
fn put_first(machine: &mut Machine, act: Act, chosen: usize) {
    match act {
        Act::Command { .. } => {}
        Act::PopA(pop) => {
            let requests = &mut machine.rank_mut(pop.rank).requests[pop.queue];
            requests.make_contiguous()[..=chosen].rotate_right(1);
        }
        Act::PopB(pop) => {
            let deliveries = &mut machine.rank_mut(pop.rank).deliveries[pop.queue];
            deliveries.make_contiguous()[..=chosen].rotate_right(1);
        }
    }
}

/// Does an item, a pop with this choice.
fn step(choice: Choice, program: &Program, machine: &mut Machine, item: &Item) -> Result<Step, u8> {
    let in_row = machine.open_row.is_some();
    let Some(pop) = item.act.pop().filter(|_| !in_row) else {
        return machine.step(program, item);
    };
    let chosen = choice(&Chance {
        item,
        named: pop.remote,
        waiting: &waiting(machine, item.act),
    })?;
    put_first(machine, item.act, chosen);
    let act = item.act.unnamed();
    machine.step(program, &Item { act, ..*item })
}

/// The whole check with this choice.
fn check(choice: Choice, inputs: [&[u8]; 3], lists: [&mut [u8]; 2]) -> Answer {
    let step = |program: &Program, machine: &mut Machine, item: &Item| {
        step(choice, program, machine, item)
    };
    check_by(&step, inputs, lists)
}

/// Fails unless a subject with this choice is caught, also on accepted records.
fn assert_misjudged(choice: Choice) {
    assert_caught_and_misjudged(&|program, start, record, order, cells| {
        check(choice, [program, start, record], [order, cells])
    });
}

/// Fails unless a subject with this choice is caught, be it on refused records only.
fn assert_choice_caught(choice: Choice) {
    assert_caught(&|program, start, record, order, cells| {
        check(choice, [program, start, record], [order, cells])
    });
}

#[test]
fn the_right_choice_is_not_caught() {
    let subject: Subject = &|program, start, record, order, cells| {
        check(
            |chance| chance.right(),
            [program, start, record],
            [order, cells],
        )
    };
    assert_eq!(first_caught(subject), None);
    assert_eq!(first_misjudged(subject), None);
}

#[test]
fn the_newest_entry_for_the_rank() {
    assert_misjudged(|chance| match chance.named {
        Some(_) => chance.last(|entry| chance.fits(entry)),
        None => chance.right(),
    });
}

#[test]
fn the_newest_of_all_without_a_name() {
    assert_misjudged(|chance| match chance.named {
        Some(_) => chance.right(),
        None => chance.last(|_| true),
    });
}

#[test]
fn a_deliverys_age_counted_from_its_issue() {
    assert_misjudged(|chance| {
        let fitting = chance.waiting.iter().filter(|entry| chance.fits(entry));
        let oldest = fitting.map(|entry| entry.issued).min();
        chance.first(|entry| Some(entry.issued) == oldest)
    });
}

#[test]
fn a_read_for_the_rank_that_it_is_delivered_to() {
    assert_misjudged(|chance| {
        let fits = |entry: &Waiting| chance.named.is_none_or(|named| named == entry.destination);
        chance.first(fits)
    });
}

#[test]
fn a_delivered_read_for_the_rank_that_it_is_delivered_to() {
    assert_misjudged(|chance| match chance.item.act {
        Act::PopB(_) => {
            let fits =
                |entry: &Waiting| chance.named.is_none_or(|named| named == entry.destination);
            chance.first(fits)
        }
        _ => chance.right(),
    });
}

#[test]
fn an_entry_for_the_rank_of_the_cell_that_its_pop_accesses() {
    assert_misjudged(|chance| {
        let fits = |entry: &Waiting| chance.named.is_none_or(|named| named == entry.place.rank);
        chance.first(fits)
    });
}

#[test]
fn the_own_rank_named_for_every_entry() {
    assert_choice_caught(|chance| {
        let own = chance.named == Some(chance.item.act.rank());
        chance.first(|entry| own || chance.fits(entry))
    });
}

#[test]
fn bit_6_ignored_in_the_choice() {
    assert_misjudged(|chance| chance.first(|_| true));
}

#[test]
fn bit_6_ignored_by_one_of_the_pops() {
    assert_misjudged(|chance| match chance.item.act {
        Act::PopA(_) => chance.first(|_| true),
        _ => chance.right(),
    });
    assert_misjudged(|chance| match chance.item.act {
        Act::PopB(_) => chance.first(|_| true),
        _ => chance.right(),
    });
}

#[test]
fn a_name_taken_for_the_oldest_of_all_only() {
    assert_misjudged(|chance| match chance.right()? {
        0 => Ok(0),
        _ => Err(10),
    });
}

#[test]
fn a_plain_pop_refused_while_several_ranks_wait() {
    assert_misjudged(|chance| {
        let first = chance.waiting.first().map(|entry| entry.remote);
        let several = chance
            .waiting
            .iter()
            .any(|entry| Some(entry.remote) != first);
        match chance.named {
            None if several => Err(10),
            _ => chance.right(),
        }
    });
}

#[test]
fn a_plain_pop_by_the_lowest_rank() {
    assert_misjudged(|chance| {
        let lowest = chance.waiting.iter().map(|entry| entry.remote).min();
        match chance.named {
            None => chance.first(|entry| Some(entry.remote) == lowest),
            Some(_) => chance.right(),
        }
    });
}

#[test]
fn the_oldest_of_all_where_none_waits_for_the_rank() {
    assert_choice_caught(|chance| chance.right().or_else(|_| chance.first(|_| true)));
}

#[test]
fn an_entry_chosen_by_its_place() {
    assert_choice_caught(|chance| {
        chance.first(|entry| chance.fits(entry) && chance.item.place == Some(entry.place))
    });
    assert_choice_caught(|chance| {
        let placed = |entry: &Waiting| chance.item.place == Some(entry.place);
        chance.first(placed).or_else(|_| chance.right())
    });
}

#[test]
fn number_11_where_none_waits_for_the_rank() {
    assert_choice_caught(|chance| match chance.waiting.is_empty() {
        true => Err(10),
        false => chance.right().map_err(|_| 11),
    });
}

#[test]
fn number_10_where_the_place_differs() {
    assert_caught(&|program, start, record, order, cells| match check_bytes(
        program, start, record, order, cells,
    ) {
        Answer::Refused(Refusal { number: 11, place }) if is_named(program, record, place) => {
            refused(10, place)
        }
        other => other,
    });
}

/// Whether the item with this number names a remote rank.
fn is_named(program: &[u8], record: &[u8], item: usize) -> bool {
    let items = Program::read(program).and_then(|program| read_record(record, &program));
    items.is_ok_and(|items| items.get(item).is_some_and(names_remote))
}

#[test]
fn number_5_for_a_rank_with_none_waiting() {
    assert_caught(&|program, start, record, order, cells| match check_bytes(
        program, start, record, order, cells,
    ) {
        Answer::Refused(Refusal { number: 10, place }) if is_named(program, record, place) => {
            refused(5, last_field(record, items_of(record)[place]))
        }
        other => other,
    });
}

#[test]
fn the_remote_rank_judged_before_the_fields_before_it() {
    assert_caught(&|program, start, record, order, cells| {
        let answer = check_bytes(program, start, record, order, cells);
        let Answer::Refused(Refusal { number: 5, place }) = answer else {
            return answer;
        };
        let Some(at) = items_of(record).into_iter().rfind(|&at| at <= place) else {
            return answer;
        };
        let last = last_field(record, at);
        match record.get(last) {
            Some(&remote) if record[at] & 64 != 0 && !(1..=program[0]).contains(&remote) => {
                refused(5, last)
            }
            _ => answer,
        }
    });
}

#[test]
fn the_remote_rank_not_missed_at_the_end_of_the_record() {
    assert_caught(&|program, start, record, order, cells| {
        let answer = check_bytes(program, start, record, order, cells);
        let Answer::Refused(Refusal { number: 4, place }) = answer else {
            return answer;
        };
        let missing = |&at: &usize| record[at] & 64 != 0 && last_field(record, at) == place;
        if place == record.len() && items_of(record).last().is_some_and(missing) {
            return check_bytes(program, start, &[record, &[1]].concat(), order, cells);
        }
        answer
    });
}

/// The place of the last byte that an item's map names.
fn last_field(record: &[u8], at: usize) -> usize {
    at + 1 + fields(record[at])
}
