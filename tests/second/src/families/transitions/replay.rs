//! The replay's refusals with transitions from 256 on, where the low byte alone often names a
//! transition that would be taken.

use super::build::{
    assign, assume, at, bar, cells, command, giving, idle, load, popa, popb, read, sparse, store,
    with_operand, write,
};
use super::{accepted, own_order, refused};
use crate::corpus::Expected;
use crate::expression::Expression;
use crate::families::row::Row;
use crate::limits::Refusal;
use crate::program::{Kind, Program, Transition};
use crate::record::Item;

/// All rows of the replay.
pub fn rows() -> Vec<Row> {
    let parts = [
        transitions(),
        evaluated(),
        assumes(),
        pops(),
        places(),
        barriers(),
        ends(),
        short_lists(),
    ];
    parts.into_iter().flatten().collect()
}

/// A program of 260 transitions, with this one at 257 and this at 1.
fn pair(high: Transition, low: Transition) -> Program {
    sparse(260, &[(257, high), (1, low)])
}

/// Row 7: from another state, or of another kind, where the low byte's transition fits or not.
fn transitions() -> Vec<Row> {
    let of = |what: &str, high, low, items: &[Item], place| {
        let what = format!("number-257-{what}");
        refused(&what, &pair(high, low), items, 7, place)
    };
    let stored = |number| at(command(Kind::Store, 1, number), 0);
    let assigned = |rank, number| command(Kind::Assign, rank, number);
    let away = Transition { to: 1, ..assign(1) };
    let from_1 = || Transition {
        from: 1,
        ..assign(1)
    };
    let both = [assigned(1, 257), assigned(1, 257)];
    let bar_item = command(Kind::Bar, 1, 257);
    let of_399 = sparse(400, &[(143, assign(1)), (399, store(0, 1))]);
    let of_256 = sparse(257, &[(0, assign(1)), (256, from_1())]);
    vec![
        of("other-state-low-fits", from_1(), assign(1), &both[..1], 0),
        of("other-state", from_1(), idle(), &both[..1], 0),
        of(
            "other-kind-low-fits",
            load(0),
            store(0, 1),
            &[stored(257)],
            0,
        ),
        of("other-kind-low-too", load(0), load(0), &[stored(257)], 0),
        of("bar-said-assign", bar(), assign(1), &both[..1], 0),
        of("assign-said-bar", assign(1), bar(), &[bar_item], 0),
        of("fits-but-1-taken", store(0, 1), load(0), &[stored(1)], 0),
        of("state-left", away, assign(1), &both, 1),
        refused("number-399-other-kind", &of_399, &[assigned(1, 399)], 7, 0),
        refused(
            "number-399-of-rank-2",
            &of_399,
            &[assigned(1, 143), assigned(2, 399)],
            7,
            1,
        ),
        refused(
            "number-256-of-rank-2",
            &of_256,
            &[assigned(1, 0), assigned(2, 256)],
            7,
            1,
        ),
    ]
}

/// Row 8: each evaluated number outside its range, where the low byte's transition has it inside.
fn evaluated() -> Vec<Row> {
    let of = |what: &str, high, low, item| {
        let what = format!("number-257-{what}");
        refused(&what, &pair(high, low), &[item], 8, 0)
    };
    let stored = at(command(Kind::Store, 1, 257), 0);
    let loaded = giving(at(command(Kind::Load, 1, 257), 0), 0);
    let written = command(Kind::Write, 1, 257);
    let asked = command(Kind::Read, 1, 257);
    let other_queue = with_operand(write(0, 2, 0), 3, Expression::Constant(1));
    vec![
        of("store-cell-8", store(8, 1), store(0, 1), stored),
        of("load-cell-256", load(256), load(0), loaded),
        of("write-own-cell", write(8, 2, 0), write(0, 2, 0), written),
        of("write-rank-0", write(0, 0, 0), write(0, 2, 0), written),
        of("write-rank-3", write(0, 3, 0), write(0, 2, 0), written),
        of("write-cell-8", write(0, 2, 8), write(0, 2, 0), written),
        of("write-queue-1", other_queue, write(0, 2, 0), written),
        of("read-own-cell", read(8, 2, 0), read(0, 2, 0), asked),
        of("read-rank-3", read(0, 3, 0), read(0, 2, 0), asked),
    ]
}

/// Row 9.
fn assumes() -> Vec<Row> {
    let assumed = |number| command(Kind::Assume, 1, number);
    let program = pair(assume(0), assume(1));
    vec![
        refused("number-257-low-passes", &program, &[assumed(257)], 9, 0),
        refused(
            "number-257-after-low",
            &program,
            &[assumed(1), assumed(257)],
            9,
            1,
        ),
        refused(
            "number-1-high-passes",
            &pair(assume(1), assume(0)),
            &[assumed(1)],
            9,
            0,
        ),
    ]
}

/// Row 10.
fn pops() -> Vec<Row> {
    let program = pair(write(0, 2, 0), write(0, 2, 0));
    let written = command(Kind::Write, 1, 257);
    vec![
        refused("number-257-popa-first", &program, &[popa(1, (1, 0))], 10, 0),
        refused(
            "number-257-popb-first",
            &program,
            &[written, popb(1, (2, 0))],
            10,
            1,
        ),
        refused(
            "number-257-rank-2-popa",
            &program,
            &[written, popa(2, (1, 0))],
            10,
            1,
        ),
    ]
}

/// Row 11: places and values, which are right of the low byte's transition.
fn places() -> Vec<Row> {
    let stores = pair(store(0, 9), store(1, 8));
    let loads = pair(load(0), load(1));
    let writes = pair(write(0, 2, 3), write(1, 2, 4));
    let stored = |cell| at(command(Kind::Store, 1, 257), cell);
    let loaded = |cell| at(command(Kind::Load, 1, 257), cell);
    let written = command(Kind::Write, 1, 257);
    vec![
        refused("number-257-store-place", &stores, &[stored(1)], 11, 0),
        refused(
            "number-257-store-value",
            &stores,
            &[giving(stored(0), 8)],
            11,
            0,
        ),
        refused("number-257-load-place", &loads, &[loaded(1)], 11, 0),
        refused(
            "number-257-load-value",
            &loads,
            &[giving(loaded(0), 1)],
            11,
            0,
        ),
        refused(
            "number-257-popa-place",
            &writes,
            &[written, popa(1, (1, 1))],
            11,
            1,
        ),
        refused(
            "number-257-popb-place",
            &writes,
            &[written, popa(1, (1, 0)), popb(1, (2, 4))],
            11,
            2,
        ),
    ]
}

/// Row 12, which comes before 7.
fn barriers() -> Vec<Row> {
    let program = pair(bar(), assign(1));
    let bar_of = |rank| command(Kind::Bar, rank, 257);
    let assigned = command(Kind::Assign, 2, 1);
    vec![
        refused("number-257-bar-2-first", &program, &[bar_of(2)], 12, 0),
        refused(
            "number-257-bar-1-twice",
            &program,
            &[bar_of(1), bar_of(1)],
            12,
            1,
        ),
        refused(
            "number-257-assign-in-row",
            &program,
            &[bar_of(1), assigned],
            12,
            1,
        ),
        refused("number-257-row-open", &program, &[bar_of(1)], 12, 1),
        refused(
            "number-256-bar-2-first-before-7",
            &program,
            &[command(Kind::Bar, 2, 256)],
            12,
            0,
        ),
    ]
}

/// Row 13.
fn ends() -> Vec<Row> {
    let program = pair(write(0, 2, 0), read(0, 2, 0));
    let written = command(Kind::Write, 1, 257);
    vec![
        refused("number-257-request-left", &program, &[written], 13, 1),
        refused(
            "number-257-delivery-left",
            &program,
            &[written, popa(1, (1, 0))],
            13,
            2,
        ),
    ]
}

/// Rows 14 and 15: an accepted run with lists that are long enough or one too short.
fn short_lists() -> Vec<Row> {
    let program = sparse(258, &[(256, store(0, 3)), (257, assign(1))]);
    let items = [
        at(command(Kind::Store, 1, 256), 0),
        command(Kind::Assign, 2, 257),
    ];
    let right = || {
        let last = cells(&[((1, 0), 3)]);
        accepted("258-lists", &program, &items, own_order(2), last)
    };
    let short = |lists: (usize, usize), number, place| Row {
        answer: Expected::Refused(Refusal { number, place }),
        cells: Vec::new(),
        ..right().with_lists(lists.0, lists.1)
    };
    vec![
        right().with_lists(2, 16),
        short((1, 16), 14, 2),
        short((1, 15), 14, 2),
        short((2, 15), 15, 16),
    ]
}
