//! The harness must catch a wrong slip writer, by generated inputs and by the corpus.

mod common;

use common::{accept_dated, assert_extras_caught, assert_extras_right, told};
use second::check::{accept, Accepted};
use second::extras::{slip_written, Extras, Functions, Told, Writer, DONE, SECOND};
use second::limits::{Outcome, Refusal};
use second::program::Kind;
use second::slip::{map_bytes, slip_of};

/// Fails unless this slip writer is caught.
fn assert_slip_writer_caught(subject: Writer) {
    let subject = Extras::between_guards(Functions {
        write_slip: subject,
        ..SECOND
    });
    assert_extras_caught("slip writer", &subject);
}

/// A slip writer that makes the slip of an accepted run in its own way.
fn write(
    slip_of: &dyn Fn(&Accepted) -> Vec<u8>,
    program: &[u8],
    start: &[u8],
    record: &[u8],
    memory: &mut [u8],
) -> Told {
    write_accepted(slip_of, accept(program, start, record), memory)
}

/// The same for what was accepted or refused.
fn write_accepted(
    slip_of: &dyn Fn(&Accepted) -> Vec<u8>,
    accepted: Outcome<Accepted>,
    memory: &mut [u8],
) -> Told {
    let slip = match accepted {
        Ok(accepted) => slip_of(&accepted),
        Err(refusal) => return refusal.into(),
    };
    let Some(lent) = memory.get_mut(..slip.len()) else {
        return told(15, slip.len());
    };
    lent.copy_from_slice(&slip);
    told(DONE, slip.len())
}

/// Fails unless a slip writer with this way to make slips is caught.
fn assert_slips_caught(slip_of: &dyn Fn(&Accepted) -> Vec<u8>) {
    assert_slip_writer_caught(&|program, start, record, slip| {
        write(slip_of, program, start, record, slip)
    });
}

/// The map of these counts, with the bit that a rank's index is given.
fn map_with(counts: &[usize], bit_of: impl Fn(usize) -> usize) -> u16 {
    let with_count = (0..counts.len()).filter(|&index| counts[index] > 0);
    with_count.map(|index| 1 << bit_of(index)).sum()
}

/// The bytes of counts.
fn count_bytes(counts: &[usize]) -> Vec<u8> {
    let bytes = |&count: &usize| (count as u16).to_be_bytes();
    counts.iter().flat_map(bytes).collect()
}

/// A slip of this map's bytes and these counts, those of 0 left out.
fn slip_after(mut map: Vec<u8>, counts: &[usize]) -> Vec<u8> {
    let not_0: Vec<usize> = counts.iter().copied().filter(|&count| count > 0).collect();
    map.extend(count_bytes(&not_0));
    map
}

/// A slip of these counts, with the bit that a rank's index is given.
fn slip_with(counts: &[usize], bit_of: impl Fn(usize) -> usize) -> Vec<u8> {
    let map = map_bytes(counts.len(), map_with(counts, bit_of));
    slip_after(map, counts)
}

/// The bytes of an accepted run's slip, with its counts to be changed.
fn with_counts(accepted: &Accepted, change: fn(&mut [u8])) -> Vec<u8> {
    let mut slip = slip_of(accepted);
    let counts = map_bytes(accepted.program.ranks, 0).len();
    change(&mut slip[counts..]);
    slip
}

/// How many items of each rank pass.
fn items_of(accepted: &Accepted, passes: impl Fn(&Kind) -> bool) -> Vec<usize> {
    let of_rank = |rank| {
        let of_rank = accepted.items.iter().filter(|item| item.act.rank() == rank);
        of_rank.filter(|item| passes(&item.act.kind())).count()
    };
    (1..=accepted.program.ranks).map(of_rank).collect()
}

/// The right counts: command items, the pops left out.
fn counts_of(accepted: &Accepted) -> Vec<usize> {
    items_of(accepted, |kind| !kind.is_pop())
}

#[test]
fn the_parts_put_together_rightly_are_not_caught() {
    assert_extras_right(&Extras::second());
    let writer: Writer = &|program, start, record, memory| {
        let slip = |accepted: &Accepted| slip_with(&counts_of(accepted), |index| index);
        write(&slip, program, start, record, memory)
    };
    assert_extras_right(&Extras::between_guards(Functions {
        write_slip: writer,
        ..SECOND
    }));
}

#[test]
fn an_invented_count_written() {
    assert_slips_caught(&|accepted| {
        with_counts(accepted, |counts| {
            if let Some(low) = counts.last_mut() {
                *low ^= 1;
            }
        })
    });
    assert_slips_caught(&|accepted| {
        let ones: Vec<usize> = counts_of(accepted)
            .iter()
            .map(|&count| count.min(1))
            .collect();
        slip_with(&ones, |index| index)
    });
}

#[test]
fn a_count_written_for_a_rank_without_a_command() {
    // With its bit and a count of 0, then with the count alone.
    let slip = |counts: &[usize], map| {
        let mut slip = map_bytes(counts.len(), map);
        slip.extend(count_bytes(counts));
        slip
    };
    assert_slips_caught(&|accepted| {
        let counts = counts_of(accepted);
        slip(&counts, u16::MAX >> (16 - counts.len()))
    });
    assert_slips_caught(&|accepted| {
        let counts = counts_of(accepted);
        slip(&counts, map_with(&counts, |index| index))
    });
}

#[test]
fn map_bits_written_from_the_other_end() {
    assert_slips_caught(&|accepted| {
        let counts = counts_of(accepted);
        let last = 8 * map_bytes(counts.len(), 0).len() - 1;
        slip_with(&counts, |index| last - index)
    });
    assert_slips_caught(&|accepted| {
        let counts = counts_of(accepted);
        slip_with(&counts, |index| counts.len() - 1 - index)
    });
}

#[test]
fn counts_written_ranks_falling() {
    assert_slips_caught(&|accepted| {
        with_counts(accepted, |counts| {
            counts.reverse();
            counts.chunks_exact_mut(2).for_each(<[u8]>::reverse);
        })
    });
}

#[test]
fn counts_written_low_byte_first() {
    assert_slips_caught(&|accepted| {
        with_counts(accepted, |counts| {
            counts.chunks_exact_mut(2).for_each(<[u8]>::reverse);
        })
    });
}

#[test]
fn the_low_byte_of_a_count_alone() {
    assert_slips_caught(&|accepted| {
        let low: Vec<usize> = counts_of(accepted)
            .iter()
            .map(|&count| count % 256)
            .collect();
        slip_with(&low, |index| index)
    });
}

#[test]
fn pops_counted() {
    assert_slips_caught(&|accepted| slip_with(&items_of(accepted, |_| true), |index| index));
}

#[test]
fn barriers_not_counted() {
    assert_slips_caught(&|accepted| {
        let counted = |kind: &Kind| !kind.is_pop() && *kind != Kind::Bar;
        slip_with(&items_of(accepted, counted), |index| index)
    });
}

#[test]
fn a_barrier_counted_for_rank_1_only() {
    assert_slips_caught(&|accepted| {
        let bars = items_of(accepted, |&kind| kind == Kind::Bar);
        let mut counts = counts_of(accepted);
        for (count, bars) in counts.iter_mut().zip(bars).skip(1) {
            *count -= bars;
        }
        slip_with(&counts, |index| index)
    });
}

#[test]
fn a_slip_memory_too_short_said_before_the_replay() {
    assert_slip_writer_caught(&|program, start, record, slip| {
        if slip.is_empty() {
            return told(15, 1);
        }
        slip_written(program, start, record, slip)
    });
}

#[test]
fn slip_bytes_written_although_too_short() {
    assert_slip_writer_caught(&|program, start, record, slip| {
        let mut longer = [0; 2 + 2 * 16];
        let short = slip_written(program, start, record, slip);
        if short.number == 15 {
            slip_written(program, start, record, &mut longer);
            slip.copy_from_slice(&longer[..slip.len()]);
        }
        short
    });
}

#[test]
fn a_slip_memory_just_long_enough_refused() {
    assert_slip_writer_caught(&|program, start, record, slip| {
        let before = slip.to_vec();
        let done = slip_written(program, start, record, slip);
        if done == told(DONE, slip.len()) {
            slip.copy_from_slice(&before);
            return told(15, slip.len());
        }
        done
    });
}

#[test]
fn an_empty_slip_for_a_refused_run() {
    assert_slip_writer_caught(&|program, start, record, slip| {
        let refusal = slip_written(program, start, record, slip);
        if (1..=13).contains(&refusal.number) {
            slip.iter_mut().take(1).for_each(|byte| *byte = 0);
        }
        refusal
    });
}

#[test]
fn bytes_beyond_the_slip_cleared() {
    assert_slip_writer_caught(&|program, start, record, slip| {
        let done = slip_written(program, start, record, slip);
        if done.number == DONE {
            slip[done.value..].fill(0);
        }
        done
    });
}

#[test]
fn the_bytes_missing_from_a_slip_instead_of_those_needed() {
    assert_slip_writer_caught(&|program, start, record, slip| match slip_written(
        program, start, record, slip,
    ) {
        Told { number: 15, value } => told(15, value - slip.len()),
        right => right,
    });
}

#[test]
fn a_slips_length_cut_to_16_bits() {
    assert_slip_writer_caught(&|program, start, record, slip| {
        let length = slip.len() % 65_536;
        slip_written(program, start, record, &mut slip[..length])
    });
}

#[test]
fn no_value_told_of_a_slip_written() {
    assert_slip_writer_caught(&|program, start, record, slip| {
        told(
            slip_written(program, start, record, slip).number,
            usize::MAX,
        )
    });
}

/// Fails unless a slip writer with another map of the right counts is caught.
fn assert_maps_caught(map: fn(usize, u16) -> Vec<u8>) {
    assert_slips_caught(&|accepted| {
        let counts = counts_of(accepted);
        let right = map_with(&counts, |index| index);
        slip_after(map(counts.len(), right), &counts)
    });
}

#[test]
fn a_map_of_one_byte_for_more_than_8_ranks() {
    assert_maps_caught(|_, map| vec![map as u8]);
}

#[test]
fn a_map_of_two_bytes_for_at_most_8_ranks() {
    assert_maps_caught(|_, map| map.to_be_bytes().to_vec());
}

#[test]
fn the_length_of_a_map_changed_at_another_n() {
    assert_maps_caught(|ranks, map| map_bytes(ranks + 1, map));
    assert_maps_caught(|ranks, map| map_bytes(ranks - 1, map));
}

#[test]
fn the_length_of_a_map_by_its_highest_bit() {
    assert_maps_caught(|_, map| map_bytes(if map > 255 { 9 } else { 8 }, map));
}

#[test]
fn the_low_byte_of_a_map_first() {
    assert_maps_caught(|ranks, map| {
        let mut bytes = map_bytes(ranks, map);
        bytes.reverse();
        bytes
    });
}

#[test]
fn a_map_cut_to_8_bits() {
    assert_maps_caught(|ranks, map| map_bytes(ranks, map % 256));
}

#[test]
fn a_slip_for_a_run_whose_sums_come_round() {
    assert_slip_writer_caught(&|program, start, record, memory| {
        write_accepted(&slip_of, accept_dated(program, start, record), memory)
    });
}

#[test]
fn number_8_or_9_for_18() {
    for other in [8, 9] {
        assert_slip_writer_caught(&|program, start, record, memory| {
            let accepted = accept(program, start, record).map_err(|refusal| match refusal {
                Refusal { number: 18, place } => Refusal {
                    number: other,
                    place,
                },
                refusal => refusal,
            });
            write_accepted(&slip_of, accepted, memory)
        });
    }
}
