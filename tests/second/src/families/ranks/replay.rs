//! The replay's refusals with more than eight ranks: remote ranks, rows, queues, states and places
//! of high ranks, some of which are right of a rank with the same low bits.

use super::{accepted, machine, own_order, refused, CELLS, SIZES};
use crate::expression::{Expression, Operator};
use crate::families::parts::{
    assign, assume, at, bar, command, giving, popa, popb, read, store, with_operand, write,
};
use crate::families::row::Row;
use crate::program::{Kind, Transition};
use crate::record::{Cell, Item};

/// All rows of the replay.
pub fn rows() -> Vec<Row> {
    let mut rows = Vec::new();
    for ranks in SIZES {
        rows.extend(remote_ranks(ranks));
        rows.extend(barriers(ranks));
        rows.extend(ends(ranks));
    }
    rows.extend(computed_ranks());
    for (low, high) in [(1, 9), (8, 16), (7, 15)] {
        rows.extend(twins(low, high));
    }
    rows
}

/// Row 8: a remote rank outside 1 to N.
fn remote_ranks(ranks: usize) -> Vec<Row> {
    let mut rows = Vec::new();
    for other in [0, ranks as u16 + 1, 24, 256 + ranks as u16, 65535] {
        for (name, kind, transition) in [
            ("write", Kind::Write, write(0, other, 0)),
            ("read", Kind::Read, read(0, other, 0)),
        ] {
            let what = format!("{name}-remote-rank-{other}-of-{ranks}");
            let program = machine(ranks, &[transition]);
            let item = command(kind, ranks, 0);
            rows.push(refused(&what, &program, &[item], 8, 0));
        }
    }
    rows
}

/// Remote ranks by own rank and N: their sum is above N for every rank, N less own rank is 0 for
/// rank N and 7 for rank 9 of 16.
fn computed_ranks() -> Vec<Row> {
    let (own, n) = (Expression::OwnRank, Expression::RankCount);
    let sum = Expression::binary(Operator::Sum, own.clone(), n.clone());
    let rest = Expression::binary(Operator::Difference, n, own);
    let program =
        |operand: &Expression| machine(16, &[with_operand(write(0, 1, 1), 1, operand.clone())]);
    let written = |rank| command(Kind::Write, rank, 0);
    let whole = [written(9), popa(9, (9, 0)), popb(9, (7, 1))];
    vec![
        refused("own-and-n-of-16", &program(&sum), &[written(1)], 8, 0),
        refused(
            "n-less-own-of-rank-16",
            &program(&rest),
            &[written(16)],
            8,
            0,
        ),
        accepted(
            "n-less-own-of-rank-9",
            &program(&rest),
            &whole,
            own_order(1),
            &[],
        ),
    ]
}

/// Bars of these ranks.
fn bars(ranks: impl Iterator<Item = usize>) -> Vec<Item> {
    ranks.map(|rank| command(Kind::Bar, rank, 0)).collect()
}

/// Row 12: a row needs every rank, in turn.
fn barriers(ranks: usize) -> Vec<Row> {
    let away = Transition { from: 1, ..bar() };
    let program = machine(ranks, &[bar(), assign(1), write(0, 1, 0), away]);
    let of = |what: &str, items: &[Item], number, place| {
        refused(
            &format!("{what}-of-{ranks}"),
            &program,
            items,
            number,
            place,
        )
    };
    let all_but_last = bars(1..ranks);
    let after = |item: Item| [&all_but_last[..], &[item]].concat();
    let twice = bars((1..=ranks).chain(1..ranks));
    let row_then = |item: Item| [&bars(1..=ranks)[..], &[item]].concat();
    vec![
        of("row-without-last", &all_but_last, 12, ranks - 1),
        of("row-of-rank-1", &bars(1..2), 12, 1),
        of("last-bar-first", &bars(ranks..=ranks), 12, 0),
        of("row-falling", &bars((1..=ranks).rev()), 12, 0),
        of("row-without-rank-8", &bars((1..8).chain(9..=ranks)), 12, 7),
        of(
            "row-begun-again",
            &after(command(Kind::Bar, 1, 0)),
            12,
            ranks - 1,
        ),
        of(
            "assign-in-row",
            &after(command(Kind::Assign, ranks, 1)),
            12,
            ranks - 1,
        ),
        of("popa-in-row", &after(popa(1, (1, 0))), 12, ranks - 1),
        of("second-row-without-last", &twice, 12, 2 * ranks - 1),
        of(
            "last-bar-of-another-state",
            &after(command(Kind::Bar, ranks, 3)),
            7,
            ranks - 1,
        ),
        of(
            "last-bar-of-an-assign",
            &after(command(Kind::Bar, ranks, 1)),
            7,
            ranks - 1,
        ),
        of(
            "last-bar-after-row",
            &row_then(command(Kind::Bar, ranks, 0)),
            12,
            ranks,
        ),
        of(
            "write-left-after-row",
            &row_then(command(Kind::Write, ranks, 2)),
            13,
            ranks + 1,
        ),
    ]
}

/// Rows 9, 13, 14 and 15 for rank N.
fn ends(ranks: usize) -> Vec<Row> {
    let last_only = Expression::binary(Operator::Equal, Expression::OwnRank, Expression::RankCount);
    let program = machine(
        ranks,
        &[
            write(0, 1, 1),
            with_operand(assume(1), 0, last_only),
            assign(1),
        ],
    );
    let of = |what: &str, items: &[Item], number, place| {
        refused(
            &format!("{what}-of-{ranks}"),
            &program,
            items,
            number,
            place,
        )
    };
    let written = command(Kind::Write, ranks, 0);
    let assumed = |rank| command(Kind::Assume, rank, 1);
    let assigned = [command(Kind::Assign, ranks, 2), command(Kind::Assign, 1, 2)];
    let entries = ranks * CELLS;
    vec![
        of("request-left", &[written], 13, 1),
        of("delivery-left", &[written, popa(ranks, (ranks, 0))], 13, 2),
        of(
            "assume-of-rank-before",
            &[assumed(ranks), assumed(ranks - 1)],
            9,
            1,
        ),
        of("cells-one-short", &assigned, 15, entries).with_lists(2, entries - 1),
        of("cells-of-one-rank-less", &assigned, 15, entries).with_lists(2, entries - CELLS),
        of("no-cells", &assigned, 15, entries).with_lists(2, 0),
        of("order-and-cells-short", &assigned, 14, 2).with_lists(1, entries - 1),
        accepted(
            &format!("lists-that-fit-{ranks}"),
            &program,
            &assigned,
            own_order(2),
            &[],
        )
        .with_lists(2, entries),
    ]
}

/// What one rank has the other has not, although their low bits are the same: requests, deliveries,
/// states, and cells.
fn twins(low: usize, high: usize) -> Vec<Row> {
    let away = Transition { to: 1, ..assign(1) };
    let back = Transition {
        from: 1,
        ..assign(2)
    };
    let program = machine(16, &[store(0, 5), write(0, 1, 1), away, back]);
    let of = |what: &str, items: &[Item], number, place| {
        let what = format!("{what}-{low}-and-{high}");
        refused(&what, &program, items, number, place)
    };
    let stored = |rank| at(command(Kind::Store, rank, 0), 0);
    let elsewhere = |item: Item, rank| Item {
        place: Some(Cell { rank, cell: 0 }),
        ..item
    };
    let written = |rank| command(Kind::Write, rank, 1);
    let moved = |rank, transition| command(Kind::Assign, rank, transition);
    vec![
        of("popa-of-high", &[written(low), popa(high, (low, 0))], 10, 1),
        of("popa-of-low", &[written(high), popa(low, (high, 0))], 10, 1),
        of(
            "popb-of-high",
            &[written(low), popa(low, (low, 0)), popb(high, (1, 1))],
            10,
            2,
        ),
        of(
            "popb-of-low",
            &[written(high), popa(high, (high, 0)), popb(low, (1, 1))],
            10,
            2,
        ),
        of("state-of-high", &[moved(low, 2), moved(high, 3)], 7, 1),
        of("state-of-low", &[moved(high, 2), moved(low, 3)], 7, 1),
        of("store-at-low", &[elsewhere(stored(high), low)], 11, 0),
        of("store-at-high", &[elsewhere(stored(low), high)], 11, 0),
        of("popa-at-low", &[written(high), popa(high, (low, 0))], 11, 1),
        of(
            "popb-at-own",
            &[written(high), popa(high, (high, 0)), popb(high, (high, 1))],
            11,
            2,
        ),
        of(
            "value-of-low",
            &[stored(low), written(high), giving(popa(high, (high, 0)), 5)],
            11,
            2,
        ),
    ]
}
