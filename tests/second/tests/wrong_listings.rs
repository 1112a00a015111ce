//! The harness must catch a wrong listing, by generated inputs and by the corpus.

mod common;

use common::{accept_dated, assert_extras_caught, assert_extras_right, told};
use second::check::{accept, Accepted};
use second::extras::{listed, Extras, Functions, Told, Writer, DONE, RING, SECOND};
use second::families::former_ring::former_groups;
use second::groups::Group;
use second::limits::{Outcome, Refusal};
use second::listing::lines_of;
use second::order::Verdict;
use second::program::Kind;

/// Fails unless this listing is caught.
fn assert_listing_caught(subject: Writer) {
    let subject = Extras::between_guards(Functions {
        list: subject,
        ..SECOND
    });
    assert_extras_caught("listing", &subject);
}

/// A listing that makes the lines of an accepted run in its own way.
fn list(
    lines_of: &dyn Fn(&Accepted) -> String,
    program: &[u8],
    start: &[u8],
    record: &[u8],
    memory: &mut [u8],
) -> Told {
    list_accepted(lines_of, accept(program, start, record), memory)
}

/// The same for what was accepted or refused.
fn list_accepted(
    lines_of: &dyn Fn(&Accepted) -> String,
    accepted: Outcome<Accepted>,
    memory: &mut [u8],
) -> Told {
    let (number, text) = match accepted {
        Ok(accepted) => match accepted.verdict {
            Verdict::Order(_) => (DONE, lines_of(&accepted)),
            Verdict::Ring(_) => (RING, lines_of(&accepted)),
        },
        Err(Refusal { number, place }) => (number, format!("refused {number} {place}\n")),
    };
    let Some(lent) = memory.get_mut(..text.len()) else {
        return told(15, text.len());
    };
    lent.copy_from_slice(text.as_bytes());
    told(number, text.len())
}

/// Fails unless a listing with this way to make lines is caught.
fn assert_lines_caught(lines_of: &dyn Fn(&Accepted) -> String) {
    assert_listing_caught(&|program, start, record, text| {
        list(lines_of, program, start, record, text)
    });
}

/// The lines of a run whose groups have been changed.
fn with_groups(accepted: &Accepted, change: impl Fn(&mut Group)) -> String {
    let mut changed = accepted.clone();
    changed.grouping.groups.iter_mut().for_each(change);
    lines_of(&changed)
}

/// The lines of a run that pass.
fn filtered(accepted: &Accepted, passes: impl Fn(&str) -> bool) -> String {
    let lines = lines_of(accepted);
    let kept = lines.split_inclusive('\n').filter(|line| passes(line));
    kept.collect()
}

#[test]
fn the_right_lines_are_not_caught() {
    let writer: Writer =
        &|program, start, record, text| list(&lines_of, program, start, record, text);
    assert_extras_right(&Extras::between_guards(Functions {
        list: writer,
        ..SECOND
    }));
}

#[test]
fn a_group_line_with_the_groups_last_item() {
    assert_lines_caught(&|accepted| with_groups(accepted, |group| group.items.reverse()));
}

#[test]
fn a_barriers_rank_1_printed() {
    assert_lines_caught(&|accepted| {
        with_groups(accepted, |group| {
            if group.kind == Kind::Bar {
                group.rank = 1;
            }
        })
    });
}

#[test]
fn cells_that_are_0_listed() {
    assert_lines_caught(&|accepted| {
        let mut lines = filtered(accepted, |line| !line.starts_with("cell "));
        for (index, rank) in accepted.run.last.ranks.iter().enumerate() {
            for (cell, value) in rank.cells.iter().enumerate() {
                lines.push_str(&format!("cell {} {cell} {value}\n", index + 1));
            }
        }
        lines
    });
}

#[test]
fn cells_left_out() {
    assert_lines_caught(&|accepted| filtered(accepted, |line| !line.starts_with("cell ")));
    assert_lines_caught(&|accepted| {
        filtered(accepted, |line| {
            !line.starts_with("cell ") || line.starts_with("cell 1 ")
        })
    });
}

#[test]
fn ranks_counted_from_0_in_cell_lines() {
    assert_lines_caught(&|accepted| {
        let mut lines = filtered(accepted, |line| !line.starts_with("cell "));
        for (index, rank) in accepted.run.last.ranks.iter().enumerate() {
            for (cell, value) in rank
                .cells
                .iter()
                .enumerate()
                .filter(|(_, &value)| value != 0)
            {
                lines.push_str(&format!("cell {index} {cell} {value}\n"));
            }
        }
        lines
    });
}

#[test]
fn document_01s_ring_listed() {
    assert_lines_caught(&|accepted| {
        let mut changed = accepted.clone();
        if let Verdict::Ring(ring) = &mut changed.verdict {
            *ring = former_groups(accepted);
        }
        lines_of(&changed)
    });
}

#[test]
fn every_group_listed_under_a_ring() {
    assert_lines_caught(&|accepted| {
        let mut changed = accepted.clone();
        let all: Vec<usize> = (0..accepted.grouping.groups.len()).collect();
        if let Verdict::Ring(ring) = &mut changed.verdict {
            *ring = all;
        }
        lines_of(&changed)
    });
}

#[test]
fn groups_by_number_instead_of_in_the_answers_order() {
    assert_lines_caught(&|accepted| {
        let mut changed = accepted.clone();
        if let Verdict::Order(order) = &mut changed.verdict {
            order.sort();
        }
        lines_of(&changed)
    });
}

#[test]
fn an_invented_group_listed() {
    assert_lines_caught(&|accepted| {
        let mut changed = accepted.clone();
        match &mut changed.verdict {
            Verdict::Order(groups) | Verdict::Ring(groups) => {
                groups.extend(groups.first().copied())
            }
        }
        lines_of(&changed)
    });
}

#[test]
fn lines_with_another_end() {
    assert_lines_caught(&|accepted| lines_of(accepted).trim_end().to_string());
    assert_lines_caught(&|accepted| lines_of(accepted) + "\0");
    assert_lines_caught(&|accepted| lines_of(accepted).replace('\n', "\r\n"));
    assert_lines_caught(&|accepted| lines_of(accepted).replace('\n', " \n"));
}

#[test]
fn a_refused_line_cut_short() {
    // Said with the run's own number and the bytes written, then with 15.
    assert_listing_caught(&|program, start, record, text| match (
        listed(program, start, record, text),
        accept(program, start, record),
    ) {
        (Told { number: 15, .. }, Err(Refusal { number, place })) => {
            let line = format!("refused {number} {place}\n");
            text.copy_from_slice(&line.as_bytes()[..text.len()]);
            told(number, text.len())
        }
        (right, _) => right,
    });
    assert_listing_caught(&|program, start, record, text| {
        let right = listed(program, start, record, text);
        if let (15, Err(Refusal { number, place })) = (right.number, accept(program, start, record))
        {
            let line = format!("refused {number} {place}\n");
            text.copy_from_slice(&line.as_bytes()[..text.len()]);
        }
        right
    });
}

#[test]
fn a_refused_line_that_does_not_fit_told_with_its_own_number() {
    assert_listing_caught(&|program, start, record, text| match (
        listed(program, start, record, text),
        accept(program, start, record),
    ) {
        (Told { number: 15, .. }, Err(Refusal { number, .. })) => told(number, 0),
        (right, _) => right,
    });
}

#[test]
fn no_refused_line_written() {
    assert_listing_caught(
        &|program, start, record, text| match accept(program, start, record) {
            Ok(_) => listed(program, start, record, text),
            Err(Refusal { number, .. }) => told(number, 0),
        },
    );
}

#[test]
fn a_refused_runs_place_told_instead_of_its_bytes() {
    assert_listing_caught(&|program, start, record, text| {
        let right = listed(program, start, record, text);
        match accept(program, start, record) {
            Err(refusal) if right.number != 15 => refusal.into(),
            _ => right,
        }
    });
}

#[test]
fn a_refused_or_ring_listing_told_as_an_order() {
    assert_listing_caught(
        &|program, start, record, text| match listed(program, start, record, text) {
            Told {
                number: 1..=13,
                value,
            } => told(DONE, value),
            right => right,
        },
    );
    assert_listing_caught(
        &|program, start, record, text| match listed(program, start, record, text) {
            Told {
                number: RING,
                value,
            } => told(DONE, value),
            right => right,
        },
    );
}

#[test]
fn listing_bytes_written_although_too_short() {
    // The lines that fit, then the bytes that fit.
    let cut = |[program, start, record]: [&[u8]; 3], text: &mut [u8], whole_lines: bool| {
        let short = listed(program, start, record, text);
        if short.number == 15 {
            let mut longer = vec![0; short.value];
            listed(program, start, record, &mut longer);
            let fits = &longer[..text.len()];
            let lines = fits.iter().rposition(|&byte| byte == b'\n');
            let end = match whole_lines {
                true => lines.map_or(0, |at| at + 1),
                false => fits.len(),
            };
            text[..end].copy_from_slice(&fits[..end]);
        }
        short
    };
    assert_listing_caught(&|program, start, record, text| {
        cut([program, start, record], text, true)
    });
    assert_listing_caught(&|program, start, record, text| {
        cut([program, start, record], text, false)
    });
}

#[test]
fn a_listing_memory_just_long_enough_refused() {
    assert_listing_caught(&|program, start, record, text| {
        let before = text.to_vec();
        let done = listed(program, start, record, text);
        if done.number != 15 && done.value == text.len() {
            text.copy_from_slice(&before);
            return told(15, text.len());
        }
        done
    });
}

#[test]
fn too_short_said_before_a_run_is_refused() {
    // With the bytes of the shortest listing of an accepted run, `order 0`.
    assert_listing_caught(&|program, start, record, text| match text.len() {
        0..8 => told(15, 8),
        _ => listed(program, start, record, text),
    });
}

#[test]
fn bytes_beyond_the_listing_cleared() {
    assert_listing_caught(&|program, start, record, text| {
        let done = listed(program, start, record, text);
        if done.number != 15 {
            text[done.value..]
                .iter_mut()
                .take(1)
                .for_each(|byte| *byte = 0);
        }
        done
    });
}

#[test]
fn the_bytes_missing_from_a_listing_instead_of_those_needed() {
    assert_listing_caught(
        &|program, start, record, text| match listed(program, start, record, text) {
            Told { number: 15, value } => told(15, value - text.len()),
            right => right,
        },
    );
}

#[test]
fn a_listings_length_cut_to_16_bits() {
    assert_listing_caught(&|program, start, record, text| {
        let length = text.len() % 65_536;
        listed(program, start, record, &mut text[..length])
    });
}

#[test]
fn no_value_told_of_a_listing() {
    assert_listing_caught(&|program, start, record, text| {
        told(listed(program, start, record, text).number, usize::MAX)
    });
}

#[test]
fn a_rank_of_two_digits_printed_as_one() {
    assert_lines_caught(&|accepted| with_groups(accepted, |group| group.rank %= 10));
}

#[test]
fn cells_of_ranks_above_8_left_out() {
    assert_lines_caught(&|accepted| {
        filtered(accepted, |line| {
            let mut words = line.split(' ');
            let is_cell = words.next() == Some("cell");
            let rank = words.next().and_then(|word| word.parse().ok());
            !is_cell || rank < Some(9)
        })
    });
}

#[test]
fn lines_for_a_run_whose_sums_come_round() {
    assert_listing_caught(&|program, start, record, memory| {
        list_accepted(&lines_of, accept_dated(program, start, record), memory)
    });
}

#[test]
fn nothing_written_for_18() {
    assert_listing_caught(
        &|program, start, record, memory| match accept(program, start, record) {
            Err(refusal) if refusal.number == 18 => refusal.into(),
            accepted => list_accepted(&lines_of, accepted, memory),
        },
    );
}
