//! The harness must catch a subject with one part of the check done wrongly, the mistakes that
//! document 01 calls sound-looking among them.

mod common;

use common::{
    assert_caught, assert_caught_and_misjudged, first_caught, first_misjudged, refused, replay_by,
    StepMistake,
};
use second::bytes::fill_words;
use second::check::{last_cells, Answer};
use second::groups::{arrows, arrows_of, conflicts, gather, program_order, Pairs};
use second::harness::Subject;
use second::machine::{CommandId, Machine, Step};
use second::order::{decide, Verdict};
use second::program::{Kind, Program};
use second::record::{read_record, Act, Item, Pop};
use second::start::start_of;
use std::cell::RefCell;
use std::collections::BTreeMap;

/// How a wrong program draws its arrows.
type ArrowMistake<'a> = &'a dyn Fn(&[Step], &[usize]) -> Pairs;

/// The whole check put together once more, with one part of it replaced.
fn variant(
    step: StepMistake,
    draw: ArrowMistake,
    [program, start, record]: [&[u8]; 3],
    [order, cells]: [&mut [u8]; 2],
) -> Answer {
    let ready = Program::read(program).and_then(|program| {
        let start = start_of(&program, start)?;
        let items = read_record(record, &program)?;
        replay_by(step, &program, &start, &items)
    });
    let run = match ready {
        Ok(run) => run,
        Err(refusal) => return Answer::Refused(refusal),
    };
    let grouping = gather(&run.steps);
    let count = grouping.groups.len();
    let last = last_cells(&run.last);
    if order.len() / 2 < count {
        return refused(14, count);
    }
    if cells.len() / 2 < last.len() {
        return refused(15, last.len());
    }
    let verdict = decide(count, &draw(&run.steps, &grouping.group_of));
    let groups: Vec<u16> = verdict.groups().iter().map(|&group| group as u16).collect();
    fill_words(order, &groups);
    fill_words(cells, &last);
    match verdict {
        Verdict::Order(_) => Answer::Order(groups.len()),
        Verdict::Ring(_) => Answer::Ring(groups.len()),
    }
}

/// The right way to do an item.
fn right_step(program: &Program, machine: &mut Machine, item: &Item) -> Result<Step, u8> {
    machine.step(program, item)
}

/// Fails unless this way to draw arrows is caught, also by the judge, which knows no arrows.
fn assert_arrows_caught(draw: ArrowMistake) {
    assert_caught_and_misjudged(&|program, start, record, order, cells| {
        variant(&right_step, draw, [program, start, record], [order, cells])
    });
}

/// Fails unless this way to do items is caught, also on accepted records.
fn assert_steps_misjudged(step: StepMistake) {
    assert_caught_and_misjudged(&|program, start, record, order, cells| {
        variant(step, &arrows, [program, start, record], [order, cells])
    });
}

/// Fails unless this way to do items is caught, be it on refused records only.
fn assert_steps_caught(step: StepMistake) {
    assert_caught(&|program, start, record, order, cells| {
        variant(step, &arrows, [program, start, record], [order, cells])
    });
}

/// Program order and those conflicts that pass the filter on writing by the first and the second.
fn filtered(steps: &[Step], group_of: &[usize], keep: fn(bool, bool) -> bool) -> Pairs {
    let writes = |item: usize| steps[item].access.is_some_and(|access| access.writes);
    let kept = |&(first, second): &(usize, usize)| keep(writes(first), writes(second));
    let pairs: Pairs = conflicts(steps).into_iter().filter(kept).collect();
    let mut all = arrows_of(&program_order(steps), group_of);
    all.extend(arrows_of(&pairs, group_of));
    all
}

#[test]
fn the_parts_put_together_rightly_are_not_caught() {
    let subject: Subject = &|program, start, record, order, cells| {
        variant(
            &right_step,
            &arrows,
            [program, start, record],
            [order, cells],
        )
    };
    assert_eq!(first_caught(subject), None);
    assert_eq!(first_misjudged(subject), None);
}

#[test]
fn no_arrows_from_a_read_to_the_next_write() {
    assert_arrows_caught(&|steps, group_of| filtered(steps, group_of, |first, _| first));
}

#[test]
fn no_arrows_from_write_to_write() {
    assert_arrows_caught(&|steps, group_of| {
        filtered(steps, group_of, |first, second| !(first && second))
    });
}

#[test]
fn no_arrows_from_a_write_to_reads() {
    assert_arrows_caught(&|steps, group_of| filtered(steps, group_of, |_, second| second));
}

#[test]
fn no_conflict_arrows_at_all() {
    assert_arrows_caught(&|steps, group_of| arrows_of(&program_order(steps), group_of));
}

#[test]
fn no_program_order() {
    assert_arrows_caught(&|steps, group_of| arrows_of(&conflicts(steps), group_of));
}

#[test]
fn a_conflict_inside_one_group_drawn_as_an_arrow() {
    assert_arrows_caught(&|steps, group_of| {
        let mut all = arrows(steps, group_of);
        let inside = conflicts(steps);
        all.extend(
            inside
                .iter()
                .map(|&(one, other)| (group_of[one], group_of[other])),
        );
        all
    });
}

#[test]
fn pops_in_program_order() {
    assert_arrows_caught(&|steps, group_of| {
        let mut all = arrows(steps, group_of);
        let mut latest = BTreeMap::new();
        for (item, step) in steps.iter().enumerate() {
            if let Some(before) = latest.insert(step.act.rank(), item) {
                all.extend(arrows_of(&Pairs::from([(before, item)]), group_of));
            }
        }
        all
    });
}

#[test]
fn queue_order_drawn_as_an_arrow() {
    // Without #108 program order leads the same way along each queue, and only the ring listed can
    // differ; where a transfer overtakes another, the arrow leads against it.
    assert_arrows_caught(&|steps, group_of| {
        let mut all = arrows(steps, group_of);
        let mut latest = BTreeMap::new();
        for (item, step) in steps.iter().enumerate() {
            if let Act::PopB(pop) = step.act {
                if let Some(before) = latest.insert((pop.rank, pop.queue), item) {
                    all.extend(arrows_of(&Pairs::from([(before, item)]), group_of));
                }
            }
        }
        all
    });
}

#[test]
fn fetching_at_issue() {
    let fetched: RefCell<BTreeMap<CommandId, u16>> = RefCell::new(BTreeMap::new());
    assert_steps_misjudged(&|program, machine, item| {
        let mut step = machine.perform(program, item.act)?;
        if item.act.kind().is_transfer() {
            let requests = machine.rank(step.command.rank).requests.iter().flatten();
            for request in requests.filter(|request| request.command == step.command) {
                fetched
                    .borrow_mut()
                    .insert(step.command, machine.read_cell(request.source));
            }
        }
        if let (Act::PopA(pop), Some(access)) = (item.act, &mut step.access) {
            access.value = fetched.borrow()[&step.command];
            let latest = machine.rank_mut(pop.rank).deliveries[pop.queue].back_mut();
            latest
                .into_iter()
                .for_each(|delivery| delivery.value = access.value);
        }
        compared(item, step)
    });
}

/// The step if the item claims its place and, where it gives one, its value.
fn compared(item: &Item, step: Step) -> Result<Step, u8> {
    let place = step.access.map(|access| access.cell);
    let value = step.access.map(|access| access.value);
    if item.place != place || (item.value.is_some() && item.value != value) {
        return Err(11);
    }
    Ok(step)
}

#[test]
fn delivery_at_the_fetch() {
    assert_steps_misjudged(&|program, machine, item| {
        let step = machine.step(program, item)?;
        if let Act::PopA(pop) = item.act {
            let latest = machine.rank(pop.rank).deliveries[pop.queue].back().copied();
            if let Some(delivery) = latest {
                machine.write_cell(delivery.destination, delivery.value);
            }
        }
        Ok(step)
    });
}

#[test]
fn a_barrier_that_empties_queues() {
    assert_steps_misjudged(&|program, machine, item| {
        let step = machine.step(program, item)?;
        if item.act.kind() == Kind::Bar && machine.open_row.is_none() {
            for rank in 1..=program.ranks {
                for queue in 0..program.queues {
                    let pop = Pop::of_all(rank, queue);
                    while machine.perform(program, Act::PopA(pop)).is_ok() {}
                    while machine.perform(program, Act::PopB(pop)).is_ok() {}
                }
            }
        }
        Ok(step)
    });
}

#[test]
fn given_values_not_compared() {
    assert_steps_caught(&|program, machine, item| {
        machine.step(
            program,
            &Item {
                value: None,
                ..*item
            },
        )
    });
}

#[test]
fn places_not_compared() {
    assert_steps_caught(&|program, machine, item| {
        let step = machine.clone().perform(program, item.act)?;
        let place = step.access.map(|access| access.cell);
        machine.step(program, &Item { place, ..*item })
    });
}

#[test]
fn the_first_item_replayed_and_the_records_values_copied_after_it() {
    assert_steps_caught(&|program, machine, item| {
        let first = machine.ranks.iter().all(|rank| rank.taken == 0);
        let plain = Item {
            value: item.value.filter(|_| first),
            ..*item
        };
        let step = machine.step(program, &plain)?;
        if let (Some(place), Some(value)) = (item.place, item.value) {
            if step.access.is_some_and(|access| access.writes) {
                machine.write_cell(place, value);
            }
        }
        Ok(step)
    });
}

#[test]
fn a_remote_rank_above_8_refused() {
    assert_steps_misjudged(&|program, machine, item| {
        let step = machine.step(program, item)?;
        let requests = machine.rank(item.act.rank()).requests.iter().flatten();
        let mut cells = requests.flat_map(|request| [request.source, request.destination]);
        if item.act.kind().is_transfer() && cells.any(|cell| cell.rank > 8) {
            return Err(8);
        }
        Ok(step)
    });
}

#[test]
fn a_row_complete_after_rank_8() {
    assert_steps_misjudged(&|program, machine, item| {
        let step = machine.step(program, item)?;
        if item.act.kind() == Kind::Bar && item.act.rank() == 8 {
            machine.open_row = None;
        }
        Ok(step)
    });
}
