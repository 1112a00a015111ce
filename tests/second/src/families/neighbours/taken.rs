//! More of which entry is taken: transfers alone, several to one rank, three ranks, two queues,
//! other issuing ranks, and document 01's own runs with names.

use super::{accepted, issued, machine, own_order, program_of, Transfer};
use super::{R1, R2, W1, W2, W2_AGAIN, W3};
use crate::corpus::Expected;
use crate::expression::{Expression, Operator};
use crate::families::parts::{
    at, bar, command, from_queue, giving, load, naming, on_queue, popa, popb, read, store,
    with_operand, write,
};
use crate::families::row::Row;
use crate::program::{Kind, Program};
use crate::record::Item;

/// All rows.
pub fn rows() -> Vec<Row> {
    let mut rows = Vec::new();
    for transfer in [W2, W1, R2, R1] {
        for names in [[false, false], [false, true], [true, false], [true, true]] {
            rows.push(alone(transfer, names));
        }
    }
    rows.extend(several());
    rows.extend(queues());
    rows.extend(issuers());
    rows.extend(known_runs());
    rows
}

/// One transfer: with nothing else waiting either form of each pop takes it. All is 0.
fn alone(transfer: Transfer, [fetch, delivery]: [bool; 2]) -> Row {
    let program = program_of(&[transfer]);
    let items = [
        command(transfer.kind, 1, 2),
        transfer.popa_with(fetch),
        transfer.popb_with(delivery),
    ];
    let word = |name| if name { "named" } else { "plain" };
    let what = format!("{}-{}-{}", transfer.name, word(fetch), word(delivery));
    accepted(&what, &program, &items, own_order(1), &[])
}

/// A row of transfers that rank 1 issues one after the other, and of pops; the places tell which is
/// taken, all is 0, no cell is written twice or read after a write, so the order is the own one.
fn row(what: &str, transfers: &[Transfer], pops: &[Item]) -> Row {
    let program = program_of(transfers);
    let items = [&issued(transfers)[..], pops].concat();
    accepted(what, &program, &items, own_order(transfers.len()), &[])
}

/// Several transfers to one rank, which stay in order among themselves, and others between.
fn several() -> Vec<Row> {
    vec![
        // rank 2 named twice: its two requests in turn, past the older one for rank 3
        row(
            "two-of-three-to-rank-2",
            &[W3, W2, W2_AGAIN],
            &[
                W2.named_popa(),
                W2_AGAIN.named_popa(),
                W3.popa(),
                W2.popb(),
                W2_AGAIN.popb(),
                W3.popb(),
            ],
        ),
        // a plain pop between takes the one for rank 3, which is the oldest
        row(
            "plain-between-two-named",
            &[W3, W2, W2_AGAIN],
            &[
                W2.named_popa(),
                W3.popa(),
                W2_AGAIN.popa(),
                W2.named_popb(),
                W2_AGAIN.named_popb(),
                W3.popb(),
            ],
        ),
        // rank 3 named between two for rank 2; the deliveries wait as fetched: 3, 2, 2
        row(
            "one-of-three-to-rank-3",
            &[W2, W2_AGAIN, W3],
            &[
                W3.named_popa(),
                W2.popa(),
                W2_AGAIN.popa(),
                W2.named_popb(),
                W3.popb(),
                W2_AGAIN.popb(),
            ],
        ),
        // a read and a write to rank 2 are both for rank 2, the read first
        row(
            "read-then-write-of-rank-2",
            &[W3, R2, W2],
            &[
                R2.named_popa(),
                W2.named_popa(),
                W3.popa(),
                R2.named_popb(),
                W2.named_popb(),
                W3.popb(),
            ],
        ),
        row(
            "write-then-read-of-rank-2",
            &[W3, W2, R2],
            &[
                W2.named_popa(),
                R2.named_popa(),
                W2.named_popb(),
                R2.named_popb(),
                W3.popa(),
                W3.popb(),
            ],
        ),
        // the same with the own rank
        row(
            "read-then-write-of-own-rank",
            &[W2, R1, W1],
            &[
                R1.named_popa(),
                W1.named_popa(),
                R1.named_popb(),
                W1.named_popb(),
                W2.popa(),
                W2.popb(),
            ],
        ),
        // a read's delivery goes to the own rank but is for rank 2: rank 1 is the write's
        row(
            "own-rank-behind-a-read-of-rank-2",
            &[R2, W1],
            &[R2.popa(), W1.popa(), W1.named_popb(), R2.popb()],
        ),
        // a write's fetch comes from the own rank but is for rank 2: rank 1 is the read's
        row(
            "own-rank-behind-a-write-to-rank-2",
            &[W2, R1],
            &[R1.named_popa(), W2.popa(), W2.named_popb(), R1.popb()],
        ),
        // three ranks, fetched 3, 1, 2 and delivered 2, 3, 1
        row(
            "three-ranks",
            &[W2, R1, W3],
            &[
                W3.named_popa(),
                R1.named_popa(),
                W2.popa(),
                W2.named_popb(),
                W3.popb(),
                R1.named_popb(),
            ],
        ),
        // one overtakes while the other has not been fetched yet
        row(
            "whole-transfer-past-a-request",
            &[W2, R1],
            &[R1.named_popa(), R1.popb(), W2.popa(), W2.popb()],
        ),
    ]
}

/// Rank 2 in both queues: a name looks for it in the pop's queue alone.
fn queues() -> Vec<Row> {
    let transitions = [
        write(0, 3, 1),
        write(2, 2, 3),
        on_queue(write(4, 2, 5), 1),
        on_queue(read(6, 3, 7), 1),
    ];
    let program = machine(3, &transitions);
    let mut items: Vec<Item> = (0..3)
        .map(|number| command(Kind::Write, 1, number))
        .collect();
    items.push(command(Kind::Read, 1, 3));
    let second = |item| from_queue(item, 1);
    items.extend([
        naming(popa(1, (1, 2)), 2),
        second(naming(popa(1, (3, 7)), 3)),
        second(naming(popa(1, (1, 4)), 2)),
        popa(1, (1, 0)),
        second(popb(1, (1, 6))),
        popb(1, (2, 3)),
        naming(popb(1, (3, 1)), 3),
        second(naming(popb(1, (2, 5)), 2)),
    ]);
    vec![accepted("two-queues", &program, &items, own_order(4), &[])]
}

/// Ranks 2 and 3 issue the same transfers: each has its own queues, and another own rank.
fn issuers() -> Vec<Row> {
    let program = machine(3, &[write(0, 2, 1), read(2, 1, 0), read(3, 3, 0)]);
    let issue = |rank| {
        [
            command(Kind::Write, rank, 0),
            command(Kind::Read, rank, 1),
            command(Kind::Read, rank, 2),
        ]
    };
    // rank 2: its write goes to the own rank; the read of rank 3 is fetched first, the write last
    let of_2 = [
        naming(popa(2, (3, 0)), 3),
        naming(popa(2, (1, 0)), 1),
        naming(popa(2, (2, 0)), 2),
        naming(popb(2, (2, 2)), 1),
        naming(popb(2, (2, 1)), 2),
        popb(2, (2, 3)),
    ];
    // rank 3: its last read is of the own rank
    let of_3 = [
        naming(popa(3, (3, 0)), 3),
        naming(popa(3, (1, 0)), 1),
        popa(3, (3, 0)),
        naming(popb(3, (2, 1)), 2),
        naming(popb(3, (3, 2)), 1),
        naming(popb(3, (3, 3)), 3),
    ];
    let one = |what: &str, rank, pops: &[Item]| {
        let items = [&issue(rank), pops].concat();
        accepted(what, &program, &items, own_order(3), &[])
    };
    // both at once: ranks 2 and 3 both deliver to cell 1 of rank 2, rank 2 first
    let both = [&issue(2)[..], &issue(3), &of_2, &of_3].concat();
    vec![
        one("issued-by-rank-2", 2, &of_2),
        one("issued-by-rank-3", 3, &of_3),
        accepted("issued-by-both", &program, &both, own_order(6), &[]),
    ]
}

/// Runs b to e of document 01, whose transfers are alone in their queues, with names: the answers
/// are document 01's.
fn known_runs() -> Vec<Row> {
    let copy = machine(1, &[write(0, 1, 0)]);
    let copied = [
        command(Kind::Write, 1, 0),
        naming(popa(1, (1, 0)), 1),
        naming(popb(1, (1, 0)), 1),
    ];
    let late = machine(1, &[write(0, 1, 1), store(0, 7)]);
    let fetched_late = [
        command(Kind::Write, 1, 0),
        at(command(Kind::Store, 1, 1), 0),
        naming(popa(1, (1, 0)), 1),
        naming(popb(1, (1, 1)), 1),
    ];
    let mut rows = vec![
        accepted("run-d", &copy, &copied, own_order(1), &[]),
        accepted(
            "run-e",
            &late,
            &fetched_late,
            Expected::Ring(vec![0, 1]),
            &[((1, 0), 7), ((1, 1), 7)],
        ),
    ];
    rows.extend(neighbour_runs());
    rows
}

/// The neighbour program of document 01.
fn neighbour_program() -> Program {
    let own = || Expression::OwnRank;
    let other = Expression::binary(Operator::Difference, Expression::Constant(3), own());
    let transitions = [
        with_operand(store(0, 0), 1, own()),
        with_operand(write(0, 0, 1), 1, other),
        bar(),
        load(1),
    ];
    machine(2, &transitions)
}

/// Runs b and c with pops that name the neighbour.
fn neighbour_runs() -> [Row; 2] {
    let program = neighbour_program();
    let mut first = vec![
        at(command(Kind::Store, 1, 0), 0),
        at(command(Kind::Store, 2, 0), 0),
        command(Kind::Write, 1, 1),
        command(Kind::Write, 2, 1),
        naming(popa(1, (1, 0)), 2),
        naming(popa(2, (2, 0)), 1),
    ];
    first.extend([1, 2].map(|rank| command(Kind::Bar, rank, 2)));
    let load = |value| giving(at(command(Kind::Load, 1, 3), 1), value);
    let deliveries = [naming(popb(1, (2, 1)), 2), naming(popb(2, (1, 1)), 1)];
    let early = [&first[..], &[load(0)], &deliveries].concat();
    let late = [&first[..], &deliveries, &[load(2)]].concat();
    let last = [((1, 0), 1), ((1, 1), 2), ((2, 0), 2), ((2, 1), 1)];
    let ring = Expected::Ring(vec![3, 4, 5]);
    let text = "ring 3\ngroup 3 write 2 3\ngroup 4 bar 0 6\ngroup 5 load 1 8\n\
        cell 1 0 1\ncell 1 1 2\ncell 2 0 2\ncell 2 1 1\n";
    [
        accepted("run-b", &program, &early, ring, &last)
            .with_listing(text.into())
            .with_slip(vec![3, 0, 4, 0, 3]),
        accepted("run-c", &program, &late, own_order(6), &last),
    ]
}
