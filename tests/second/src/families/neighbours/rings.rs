//! Orders and rings of records in which a transfer overtakes an older one of its queue. Without
//! #108 none of these records is accepted.

use super::{accepted, machine, own_order};
use crate::corpus::Expected;
use crate::families::parts::{
    at, bar, command, giving, load, naming, popa, popb, read, store, write,
};
use crate::families::row::Row;
use crate::program::Kind;
use crate::record::Item;

/// All rows.
pub fn rows() -> Vec<Row> {
    let mut rows = vec![overwritten_before_the_fetch(), own_cell_overwritten()];
    rows.extend(two_deliveries_to_one_cell());
    rows.extend(own_rank_and_read());
    rows.extend(flag_before_data());
    rows.push(other_order());
    rows.extend(around_a_row());
    rows
}

/// A store of a rank in its cell 0, with transition 0.
fn stored(rank: usize) -> Item {
    at(command(Kind::Store, rank, 0), 0)
}

/// Rank 1 writes cell 0 to rank 2 and reads cell 0 of rank 3 into its cell 0. The read overtakes:
/// it is delivered before the write is fetched. Group 0 is the store of 7 by rank 3, 1 the write, 2
/// the read. Program order leads from 1 to 2, and the read's delivery to cell 0 comes before the
/// write's fetch from there: 2 to 1. The write carries the 7 on.
fn overwritten_before_the_fetch() -> Row {
    let program = machine(3, &[store(0, 7), write(0, 2, 1), read(0, 3, 0)]);
    let items = [
        stored(3),
        command(Kind::Write, 1, 1),
        command(Kind::Read, 1, 2),
        giving(naming(popa(1, (3, 0)), 3), 7),
        giving(popb(1, (1, 0)), 7),
        giving(popa(1, (1, 0)), 7),
        giving(popb(1, (2, 1)), 7),
    ];
    let last = [((1, 0), 7), ((2, 1), 7), ((3, 0), 7)];
    let ring = Expected::Ring(vec![1, 2]);
    let text = "ring 2\ngroup 1 write 1 1\ngroup 2 read 1 2\n\
        cell 1 0 7\ncell 2 1 7\ncell 3 0 7\n";
    accepted("read-before-older-fetch", &program, &items, ring, &last)
        .with_slip(vec![5, 0, 2, 0, 1])
        .with_listing(text.into())
}

/// The same with a write to the own rank in place of the read: cell 3, which is 0, overwrites cell
/// 0 after the store of 7 and before the fetch for rank 2. Group 0 is the store.
fn own_cell_overwritten() -> Row {
    let program = machine(2, &[store(0, 7), write(0, 2, 1), write(3, 1, 0)]);
    let items = [
        stored(1),
        command(Kind::Write, 1, 1),
        command(Kind::Write, 1, 2),
        naming(popa(1, (1, 3)), 1),
        naming(popb(1, (1, 0)), 1),
        naming(popa(1, (1, 0)), 2),
        naming(popb(1, (2, 1)), 2),
    ];
    let ring = Expected::Ring(vec![1, 2]);
    accepted("own-write-before-older-fetch", &program, &items, ring, &[])
}

/// Two reads into cell 1 of rank 1, of 7 from rank 2 and of 7 + 1 from rank 3, stored by groups 0
/// and 1. Read 2 is the older. Where read 3 is delivered first, their writes to cell 1 lead from 3
/// to 2, against program order, and what read 2 brought stays; else the order is the own one.
fn two_deliveries_to_one_cell() -> Vec<Row> {
    let program = machine(3, &[store(0, 7), read(1, 2, 0), read(1, 3, 0), store(0, 8)]);
    let begin = [
        stored(2),
        at(command(Kind::Store, 3, 3), 0),
        command(Kind::Read, 1, 1),
        command(Kind::Read, 1, 2),
    ];
    let (fetch_7, fetch_8) = (popa(1, (2, 0)), popa(1, (3, 0)));
    let (deliver_7, deliver_8) = (giving(popb(1, (1, 1)), 7), giving(popb(1, (1, 1)), 8));
    let row = |what: &str, pops: [Item; 4], answer, value| {
        let items = [&begin[..], &pops].concat();
        let last = [((1, 1), value), ((2, 0), 7), ((3, 0), 8)];
        accepted(what, &program, &items, answer, &last)
    };
    let ring = || Expected::Ring(vec![2, 3]);
    vec![
        row(
            "second-read-delivered-first",
            [fetch_7, fetch_8, naming(deliver_8, 3), deliver_7],
            ring(),
            7,
        ),
        // fetched in the other order: a plain popb takes what was appended first, read 3
        row(
            "second-read-fetched-first",
            [naming(fetch_8, 3), fetch_7, deliver_8, deliver_7],
            ring(),
            7,
        ),
        // fetched in the other order, but rank 2 named: delivered as issued
        row(
            "second-read-fetched-first-delivered-last",
            [naming(fetch_8, 3), fetch_7, naming(deliver_7, 2), deliver_8],
            own_order(4),
            8,
        ),
        row(
            "both-named-as-issued",
            [
                naming(fetch_7, 2),
                naming(fetch_8, 3),
                naming(deliver_7, 2),
                naming(deliver_8, 3),
            ],
            own_order(4),
            8,
        ),
    ]
}

/// A write to the own rank and a read from rank 2, both into cell 1 of rank 1: the write, group 1,
/// is the older and brings 7, which group 0 stored; the read, group 2, brings 0.
fn own_rank_and_read() -> Vec<Row> {
    let program = machine(2, &[store(0, 7), write(0, 1, 1), read(1, 2, 0)]);
    let begin = [
        stored(1),
        command(Kind::Write, 1, 1),
        command(Kind::Read, 1, 2),
        popa(1, (1, 0)),
        popa(1, (2, 0)),
    ];
    let (own, other) = (giving(popb(1, (1, 1)), 7), giving(popb(1, (1, 1)), 0));
    let row = |what: &str, pops: [Item; 2], answer, value| {
        let items = [&begin[..], &pops].concat();
        let last = [((1, 0), 7), ((1, 1), value)];
        accepted(what, &program, &items, answer, &last)
    };
    let ring = || Expected::Ring(vec![1, 2]);
    vec![
        row(
            "own-write-overtaken-by-read",
            [naming(other, 2), own],
            ring(),
            7,
        ),
        // both deliveries are to the own rank; only the write's is for it
        row(
            "own-rank-named-for-write",
            [naming(own, 1), other],
            own_order(3),
            0,
        ),
        row(
            "rank-read-from-named-last",
            [own, naming(other, 2)],
            own_order(3),
            0,
        ),
    ]
}

/// Rank 1 stores 5, group 0, writes it to rank 2 as data, group 1, and to rank 3 as a flag, group 2.
/// The flag overtakes the data. Rank 3 loads the flag, group 3, and reads the data from rank 2,
/// group 4. If it fetches before the data's delivery, arrows lead from 1 to 2 and 3 to 4 by program
/// order, from 2 to 3 by the flag, and from 4 to 1, since the fetch comes before the delivery. If it
/// fetches after, the last leads from 1 to 4.
fn flag_before_data() -> Vec<Row> {
    let program = machine(
        3,
        &[
            store(0, 5),
            write(0, 2, 1),
            write(0, 3, 1),
            load(1),
            read(2, 2, 1),
        ],
    );
    let begin = [
        stored(1),
        command(Kind::Write, 1, 1),
        command(Kind::Write, 1, 2),
        popa(1, (1, 0)),
        popa(1, (1, 0)),
        naming(popb(1, (3, 1)), 3),
        giving(at(command(Kind::Load, 3, 3), 1), 5),
        command(Kind::Read, 3, 4),
    ];
    let data = giving(popb(1, (2, 1)), 5);
    let read = |value| {
        [
            giving(naming(popa(3, (2, 1)), 2), value),
            giving(naming(popb(3, (3, 2)), 2), value),
        ]
    };
    let early = [&begin[..], &read(0), &[data]].concat();
    let late = [&begin[..], &[data], &read(5)].concat();
    let last = [((1, 0), 5), ((2, 1), 5), ((3, 1), 5)];
    let ring = Expected::Ring(vec![1, 2, 3, 4]);
    let text = "ring 4\ngroup 1 write 1 1\ngroup 2 write 1 2\ngroup 3 load 3 6\n\
        group 4 read 3 7\ncell 1 0 5\ncell 2 1 5\ncell 3 1 5\n";
    vec![
        accepted("flag-before-data", &program, &early, ring, &last)
            .with_slip(vec![5, 0, 3, 0, 2])
            .with_listing(text.into()),
        accepted(
            "flag-before-data-read-late",
            &program,
            &late,
            own_order(5),
            &[&last[..], &[((3, 2), 5)]].concat(),
        ),
    ]
}

/// As before, but rank 2 itself loads its cell before the data comes, group 3, and rank 3 loads the
/// flag, group 2. Group 0 is the write of data, 1 that of the flag. Arrows: 0 to 1, 1 to 2, 3 to 0.
fn other_order() -> Row {
    let program = machine(3, &[write(0, 2, 1), write(0, 3, 1), load(1)]);
    let items = [
        command(Kind::Write, 1, 0),
        command(Kind::Write, 1, 1),
        naming(popa(1, (1, 0)), 3),
        popb(1, (3, 1)),
        at(command(Kind::Load, 3, 2), 1),
        at(command(Kind::Load, 2, 2), 1),
        popa(1, (1, 0)),
        popb(1, (2, 1)),
    ];
    let order = Expected::Order(vec![3, 0, 1, 2]);
    let text =
        "order 4\ngroup 3 load 2 5\ngroup 0 write 1 0\ngroup 1 write 1 1\ngroup 2 load 3 4\n";
    accepted("other-order", &program, &items, order, &[])
        .with_slip(vec![7, 0, 2, 0, 1, 0, 1])
        .with_listing(text.into())
}

/// Rank 1 writes to rank 2, group 0, and to rank 3, group 1; the second is delivered before a row,
/// group 2, and the first after it. Rank 2 loads, group 3, after the row: before the delivery it
/// makes a ring with the row, as in run b; after it there is none.
fn around_a_row() -> Vec<Row> {
    let program = machine(3, &[write(0, 2, 1), write(0, 3, 1), bar(), load(1)]);
    let mut begin = vec![
        command(Kind::Write, 1, 0),
        command(Kind::Write, 1, 1),
        naming(popa(1, (1, 0)), 3),
        naming(popb(1, (3, 1)), 3),
    ];
    begin.extend([1, 2, 3].map(|rank| command(Kind::Bar, rank, 2)));
    let load = at(command(Kind::Load, 2, 3), 1);
    let rest = [naming(popa(1, (1, 0)), 2), naming(popb(1, (2, 1)), 2)];
    let early = [&begin[..], &[load], &rest].concat();
    let late = [&begin[..], &rest, &[load]].concat();
    let ring = Expected::Ring(vec![0, 1, 2, 3]);
    let text = "ring 4\ngroup 0 write 1 0\ngroup 1 write 1 1\ngroup 2 bar 0 4\ngroup 3 load 2 7\n";
    vec![
        accepted("load-after-row", &program, &early, ring, &[])
            .with_slip(vec![7, 0, 3, 0, 2, 0, 1])
            .with_listing(text.into()),
        accepted("load-after-delivery", &program, &late, own_order(4), &[]),
    ]
}
