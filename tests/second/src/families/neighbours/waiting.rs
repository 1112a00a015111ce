//! The replay's refusals of pops with names: 10 where none waits for the named rank, 11 where the
//! entry taken has another place or value, 12 in an open row, and 13 at the end.

use super::{issued, machine, program_of, refused, Transfer};
use super::{R2, W1, W2, W2_AGAIN, W3};
use crate::families::parts::{
    bar, command, from_queue, giving, naming, on_queue, popa, popb, read, write,
};
use crate::families::row::Row;
use crate::program::Kind;
use crate::record::Item;

/// All rows.
pub fn rows() -> Vec<Row> {
    let mut rows = empty_queues();
    rows.extend(other_ranks_only());
    rows.extend(elsewhere());
    rows.extend(own_rank());
    rows.extend(other_places());
    rows.extend(open_rows());
    rows.extend(left());
    rows
}

/// A refused row of transfers that rank 1 issues, and of pops after them.
fn row(what: &str, transfers: &[Transfer], pops: &[Item], number: u8, place: usize) -> Row {
    let items = [&issued(transfers)[..], pops].concat();
    refused(what, &program_of(transfers), &items, number, place)
}

/// Nothing waits at all: 10 at the pop, whatever rank of the range is named.
fn empty_queues() -> Vec<Row> {
    let mut rows = Vec::new();
    for remote in [1, 2, 3] {
        let (a, b) = (popa(1, (1, 0)), popb(1, (2, 2)));
        let of = |what: &str, item| {
            let what = format!("{what}-naming-{remote}-of-nothing");
            row(&what, &[], &[naming(item, remote)], 10, 0)
        };
        rows.extend([
            of("popa", a),
            of("popb", b),
            of("popa-with-value", giving(a, 5)),
        ]);
    }
    rows
}

/// Entries wait in the queue, but none for the named rank; the place is right for the oldest, so a
/// pop that took it would be accepted.
fn other_ranks_only() -> Vec<Row> {
    let both = [W2, W3];
    let fetched = [W2.popa(), W3.popa()];
    let after = |pop: Item| [&fetched[..], &[pop]].concat();
    let then = |one: Item, other: Item| [one, naming(other, 2)];
    vec![
        row("popa-naming-3", &[W2], &[naming(W2.popa(), 3)], 10, 1),
        row(
            "popa-naming-1-of-two",
            &both,
            &[naming(W2.popa(), 1)],
            10,
            2,
        ),
        row(
            "popb-naming-3",
            &[W2],
            &[W2.popa(), naming(W2.popb(), 3)],
            10,
            2,
        ),
        row(
            "popb-naming-1-of-two",
            &both,
            &after(naming(W2.popb(), 1)),
            10,
            4,
        ),
        row("read-popa-naming-3", &[R2], &[naming(R2.popa(), 3)], 10, 1),
        row(
            "read-popb-naming-3",
            &[R2],
            &[R2.popa(), naming(R2.popb(), 3)],
            10,
            2,
        ),
        // the only one for rank 2 has been taken
        row(
            "popa-of-2-twice",
            &both,
            &then(W2.named_popa(), W3.popa()),
            10,
            3,
        ),
        row(
            "popb-of-2-twice",
            &both,
            &[&fetched[..], &then(W2.named_popb(), W3.popb())].concat(),
            10,
            5,
        ),
        // 10 comes before 11: neither place nor value is that of any entry
        row(
            "popa-naming-3-elsewhere",
            &[W2],
            &[naming(popa(1, (3, 7)), 3)],
            10,
            1,
        ),
        row(
            "popa-naming-3-with-value",
            &[W2],
            &[giving(naming(W2.popa(), 3), 9)],
            10,
            1,
        ),
        row(
            "popb-naming-3-elsewhere",
            &[W2],
            &[W2.popa(), naming(popb(1, (3, 3)), 3)],
            10,
            2,
        ),
    ]
}

/// One waits for the named rank, but not where the pop takes it from: in another queue, at another
/// rank, among the requests and not the deliveries, or the other way round.
fn elsewhere() -> Vec<Row> {
    let program = machine(3, &[write(0, 2, 2), on_queue(write(1, 3, 3), 1)]);
    let issue = [command(Kind::Write, 1, 0), command(Kind::Write, 1, 1)];
    let queues = |what: &str, pops: &[Item], place| {
        let items = [&issue[..], pops].concat();
        refused(what, &program, &items, 10, place)
    };
    let second = |item| from_queue(item, 1);
    let fetched = [popa(1, (1, 0)), second(popa(1, (1, 1)))];
    let after = |pop| [fetched[0], fetched[1], pop];
    let of_3 = |pop| [command(Kind::Write, 1, 0), pop];
    vec![
        queues("queue-1-naming-2", &[second(naming(popa(1, (1, 0)), 2))], 2),
        queues("queue-0-naming-3", &[naming(popa(1, (1, 1)), 3)], 2),
        queues(
            "popb-queue-1-naming-2",
            &after(second(naming(popb(1, (2, 2)), 2))),
            4,
        ),
        queues(
            "popb-queue-0-naming-3",
            &after(naming(popb(1, (3, 3)), 3)),
            4,
        ),
        refused(
            "at-another-rank",
            &program,
            &of_3(naming(popa(3, (1, 0)), 2)),
            10,
            1,
        ),
        refused(
            "at-the-remote-rank",
            &program,
            &of_3(naming(popa(2, (1, 0)), 1)),
            10,
            1,
        ),
        // as run h: the request waits, no delivery does
        row("popb-of-a-request", &[W2], &[W2.named_popb()], 10, 1),
        row("popb-of-a-read-request", &[R2], &[R2.named_popb()], 10, 1),
        // rank 3 waits among the requests, and a delivery for rank 2 does
        row(
            "popb-of-the-other-request",
            &[W2, W3],
            &[W2.popa(), W3.named_popb()],
            10,
            3,
        ),
        row(
            "popa-of-a-delivery",
            &[W2],
            &[W2.popa(), W2.named_popa()],
            10,
            2,
        ),
        row(
            "popa-of-a-delivery-beside-a-request",
            &[W2, W3],
            &[W2.popa(), W2.named_popa()],
            10,
            3,
        ),
    ]
}

/// The own rank is not that of a write to another rank, although it is fetched from there, nor that
/// of a read, although it is delivered there.
fn own_rank() -> Vec<Row> {
    let by_2 = machine(2, &[read(0, 1, 1), write(2, 1, 3)]);
    let of_2 = |what: &str, kind, transition, pops: &[Item], place| {
        let items = [&[command(kind, 2, transition)], pops].concat();
        refused(what, &by_2, &items, 10, place)
    };
    vec![
        row(
            "write-popa-naming-own",
            &[W2],
            &[naming(W2.popa(), 1)],
            10,
            1,
        ),
        row(
            "write-popb-naming-own",
            &[W2],
            &[W2.popa(), naming(W2.popb(), 1)],
            10,
            2,
        ),
        row(
            "read-popa-naming-own",
            &[R2],
            &[naming(R2.popa(), 1)],
            10,
            1,
        ),
        row(
            "read-popb-naming-own",
            &[R2],
            &[R2.popa(), naming(R2.popb(), 1)],
            10,
            2,
        ),
        of_2(
            "read-popa-of-2-naming-own",
            Kind::Read,
            0,
            &[naming(popa(2, (1, 1)), 2)],
            1,
        ),
        of_2(
            "read-popb-of-2-naming-own",
            Kind::Read,
            0,
            &[popa(2, (1, 1)), naming(popb(2, (2, 0)), 2)],
            2,
        ),
        of_2(
            "write-popb-of-2-naming-own",
            Kind::Write,
            1,
            &[popa(2, (2, 2)), naming(popb(2, (1, 3)), 2)],
            2,
        ),
    ]
}

/// An entry is taken, but the item names the place of another, or another value: 11. Cells 0 and 1
/// are 0 here.
fn other_places() -> Vec<Row> {
    let both = [W2, W3];
    let fetched = [W2.popa(), W3.popa()];
    let crossed = [W3.named_popa(), W2.popa()];
    let after = |pops: [Item; 2], pop: Item| [pops[0], pops[1], pop];
    let to_2 = [W3, W2, W2_AGAIN];
    vec![
        // the place of the oldest, which is not for the named rank
        row("popa-of-3-at-oldest", &both, &[naming(W2.popa(), 3)], 11, 2),
        row("popa-of-2-at-second", &both, &[naming(W3.popa(), 2)], 11, 2),
        row(
            "popb-of-3-at-oldest",
            &both,
            &after(fetched, naming(W2.popb(), 3)),
            11,
            4,
        ),
        row(
            "popb-of-2-at-second",
            &both,
            &after(fetched, naming(W3.popb(), 2)),
            11,
            4,
        ),
        // without a name the oldest is taken
        row("popa-at-second", &both, &[W3.popa()], 11, 2),
        row("popb-at-second", &both, &after(fetched, W3.popb()), 11, 4),
        // of two for rank 2 the older one is taken
        row("popa-of-2-at-newer", &to_2, &[W2_AGAIN.named_popa()], 11, 3),
        row(
            "popb-of-2-at-newer",
            &to_2,
            &[W3.popa(), W2.popa(), W2_AGAIN.popa(), W2_AGAIN.named_popb()],
            11,
            6,
        ),
        // the oldest delivery is the one fetched first, not the one issued first
        row(
            "popb-at-first-issued",
            &both,
            &after(crossed, W2.popb()),
            11,
            4,
        ),
        row(
            "popb-of-3-at-first-issued",
            &both,
            &after(crossed, naming(W2.popb(), 3)),
            11,
            4,
        ),
        // a read is for the rank read from: a pop that names it takes the read, not the write
        row(
            "popb-of-own-at-read",
            &[R2, W1],
            &[R2.popa(), W1.popa(), naming(R2.popb(), 1)],
            11,
            4,
        ),
        row(
            "popb-of-2-at-own-write",
            &[W1, R2],
            &[W1.popa(), R2.popa(), naming(W1.popb(), 2)],
            11,
            4,
        ),
        // the right entry and another value
        row(
            "popa-of-3-value",
            &both,
            &[giving(W3.named_popa(), 1)],
            11,
            2,
        ),
        row(
            "popb-of-3-value",
            &both,
            &after(fetched, giving(W3.named_popb(), 65535)),
            11,
            4,
        ),
        row(
            "popa-of-2-value",
            &[R2],
            &[giving(R2.named_popa(), 5)],
            11,
            1,
        ),
    ]
}

/// In an open row a pop is 12, whether it could be taken, none waits (10), or its place is another's
/// (11); an open row at the end is 12, before 13.
fn open_rows() -> Vec<Row> {
    let program = machine(2, &[write(0, 2, 1), bar()]);
    let (written, open) = (command(Kind::Write, 1, 0), command(Kind::Bar, 1, 1));
    let closed = command(Kind::Bar, 2, 1);
    let of =
        |what: &str, items: &[Item], number, place| refused(what, &program, items, number, place);
    let right = naming(popa(1, (1, 0)), 2);
    vec![
        of("popa-in-row", &[written, open, right], 12, 2),
        of("popa-of-nothing-in-row", &[open, right], 12, 1),
        of(
            "popa-of-1-in-row",
            &[written, open, naming(right, 1)],
            12,
            2,
        ),
        of(
            "popa-elsewhere-in-row",
            &[written, open, naming(popa(1, (1, 5)), 2)],
            12,
            2,
        ),
        of(
            "popb-in-row",
            &[written, right, open, naming(popb(1, (2, 1)), 2)],
            12,
            3,
        ),
        of("row-open-at-end", &[written, right, open], 12, 3),
        of("none-after-row", &[open, closed, right], 10, 2),
        of("left-after-row", &[written, open, closed, right], 13, 4),
    ]
}

/// What overtakes does not take with it what it overtook: 13 at the item count.
fn left() -> Vec<Row> {
    let both = [W2, W3];
    vec![
        row(
            "left-request",
            &both,
            &[W3.named_popa(), W3.named_popb()],
            13,
            4,
        ),
        row(
            "left-request-and-delivery",
            &both,
            &[W3.named_popa()],
            13,
            3,
        ),
        row(
            "left-delivery",
            &both,
            &[W2.popa(), W3.popa(), W3.named_popb()],
            13,
            5,
        ),
        row(
            "left-second-delivery",
            &both,
            &[W3.named_popa(), W2.popa(), W3.popb()],
            13,
            5,
        ),
    ]
}
