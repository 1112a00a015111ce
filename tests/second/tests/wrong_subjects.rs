//! The harness must catch a subject that gives a wrong answer or mishandles the lent lists: by
//! comparison, and by the exhaustive judge wherever an accepted record shows the mistake.

mod common;

use common::{assert_caught, assert_caught_and_misjudged, first_caught, first_misjudged, refused};
use second::bytes::fill_words;
use second::check::{accept, check_bytes, last_cells, Answer};
use second::program::{Kind, Program};
use second::record::{read_record, Item};

#[test]
fn the_second_program_itself_is_not_caught() {
    assert_eq!(first_caught(&check_bytes), None);
    assert_eq!(first_misjudged(&check_bytes), None);
}

#[test]
fn ring_for_every_run() {
    let fault =
        assert_caught_and_misjudged(&|program, start, record, order, cells| match check_bytes(
            program, start, record, order, cells,
        ) {
            Answer::Order(count) => Answer::Ring(count),
            other => other,
        });
    assert!(fault.ends_with("but a plain run has the trace"), "{fault}");
}

/// Answers the record's own order instead of the orders and rings that are to be changed.
fn own_order(
    changed: fn(Answer) -> bool,
    [program, start, record]: [&[u8]; 3],
    [order, cells]: [&mut [u8]; 2],
) -> Answer {
    let answer = check_bytes(program, start, record, order, cells);
    match accept(program, start, record) {
        Ok(accepted) if changed(answer) => {
            let groups = accepted.grouping.groups.len();
            let own: Vec<u16> = (0..groups as u16).collect();
            fill_words(order, &own);
            Answer::Order(groups)
        }
        _ => answer,
    }
}

#[test]
fn its_records_own_order_for_every_run() {
    assert_caught_and_misjudged(&|program, start, record, order, cells| {
        let changed = |answer| !matches!(answer, Answer::Refused(_));
        own_order(changed, [program, start, record], [order, cells])
    });
}

#[test]
fn its_records_own_order_for_every_order() {
    let fault = assert_caught_and_misjudged(&|program, start, record, order, cells| {
        let changed = |answer| matches!(answer, Answer::Order(_));
        own_order(changed, [program, start, record], [order, cells])
    });
    assert_eq!(fault, "the order written out has another trace");
}

#[test]
fn its_records_own_order_for_every_ring() {
    let fault = assert_caught_and_misjudged(&|program, start, record, order, cells| {
        let changed = |answer| matches!(answer, Answer::Ring(_));
        own_order(changed, [program, start, record], [order, cells])
    });
    assert!(fault.ends_with("but no plain run has the trace"), "{fault}");
}

#[test]
fn a_refuser_of_all() {
    assert_caught_and_misjudged(&|_, _, _, _, _| refused(1, 0));
}

#[test]
fn a_number_that_is_no_answer() {
    for number in [16, 17, 19, 200, 254] {
        assert_caught_and_misjudged(&|program, start, record, order, cells| match check_bytes(
            program, start, record, order, cells,
        ) {
            Answer::Order(count) => refused(number, count),
            other => other,
        });
    }
}

#[test]
fn a_count_beyond_the_list() {
    for count in [1_000_000, usize::MAX] {
        assert_caught_and_misjudged(&|program, start, record, order, cells| match check_bytes(
            program, start, record, order, cells,
        ) {
            Answer::Ring(_) => Answer::Ring(count),
            other => other,
        });
    }
}

#[test]
fn an_order_with_its_last_group_left_out() {
    assert_caught_and_misjudged(&|program, start, record, order, cells| {
        let before = order.to_vec();
        match check_bytes(program, start, record, order, cells) {
            Answer::Order(count) if count > 0 => {
                let entry = 2 * (count - 1)..2 * count;
                order[entry.clone()].copy_from_slice(&before[entry]);
                Answer::Order(count - 1)
            }
            other => other,
        }
    });
}

#[test]
fn a_group_listed_twice() {
    let fault = assert_caught_and_misjudged(&|program, start, record, order, cells| {
        let answer = check_bytes(program, start, record, order, cells);
        if let Answer::Order(count @ 2..) = answer {
            order.copy_within(..2, 2 * (count - 1));
        }
        answer
    });
    assert!(fault.ends_with("lists a group twice"), "{fault}");
}

#[test]
fn a_group_that_is_not_there() {
    assert_caught_and_misjudged(&|program, start, record, order, cells| {
        let answer = check_bytes(program, start, record, order, cells);
        if let Answer::Ring(count) = answer {
            fill_words(&mut order[2 * (count - 1)..], &[1_024]);
        }
        answer
    });
}

#[test]
fn a_ring_begun_at_another_group() {
    let fault = assert_caught_and_misjudged(&|program, start, record, order, cells| {
        let answer = check_bytes(program, start, record, order, cells);
        if let Answer::Ring(count) = answer {
            order[..2 * count].rotate_left(2);
        }
        answer
    });
    assert!(fault.ends_with("is not written as a ring"), "{fault}");
}

#[test]
fn the_cell_list_left_untouched() {
    assert_caught_and_misjudged(&|program, start, record, order, cells| {
        check_bytes(program, start, record, order, &mut cells.to_vec())
    });
}

#[test]
fn the_order_list_left_untouched() {
    assert_caught_and_misjudged(&|program, start, record, order, cells| {
        check_bytes(program, start, record, &mut order.to_vec(), cells)
    });
}

#[test]
fn bytes_written_past_the_entries() {
    assert_caught_and_misjudged(&|program, start, record, order, cells| {
        let answer = check_bytes(program, start, record, order, cells);
        if let Answer::Order(count) | Answer::Ring(count) = answer {
            order[2 * count..].fill(0);
        }
        answer
    });
}

#[test]
fn an_odd_last_byte_used() {
    assert_caught(&|program, start, record, order, cells| {
        let mut longer = order.to_vec();
        longer.resize(order.len().next_multiple_of(2), 0);
        let answer = check_bytes(program, start, record, &mut longer, cells);
        order.copy_from_slice(&longer[..order.len()]);
        answer
    });
}

#[test]
fn lists_touched_on_a_refusal() {
    assert_caught(&|program, start, record, order, cells| {
        let answer = check_bytes(program, start, record, order, cells);
        if matches!(answer, Answer::Refused(_)) {
            cells.iter_mut().take(2).for_each(|byte| *byte = 0);
        }
        answer
    });
}

#[test]
fn low_byte_first() {
    assert_caught_and_misjudged(&|program, start, record, order, cells| {
        let answer = check_bytes(program, start, record, order, cells);
        if let Answer::Order(count) | Answer::Ring(count) = answer {
            order[..2 * count]
                .chunks_exact_mut(2)
                .for_each(<[u8]>::reverse);
        }
        answer
    });
}

#[test]
fn cells_looked_at_before_the_order_list() {
    assert_caught(&|program, start, record, order, cells| match (
        check_bytes(program, start, record, order, cells),
        accept(program, start, record),
    ) {
        (Answer::Refused(_), Ok(accepted)) => {
            let needed = last_cells(&accepted.run.last).len();
            if cells.len() / 2 < needed {
                return refused(15, needed);
            }
            refused(14, accepted.grouping.groups.len())
        }
        (answer, _) => answer,
    });
}

#[test]
fn too_short_said_before_the_replay() {
    assert_caught(&|program, start, record, order, cells| {
        let read = Program::read(program);
        let items = read.and_then(|program| read_record(record, &program));
        let commands = |items: &[Item]| {
            let is_group = |item: &&Item| {
                let kind = item.act.kind();
                item.act.transition().is_some() && (kind != Kind::Bar || item.act.rank() == 1)
            };
            items.iter().filter(is_group).count()
        };
        match items {
            Ok(items) if order.len() / 2 < commands(&items) => refused(14, commands(&items)),
            _ => check_bytes(program, start, record, order, cells),
        }
    });
}
