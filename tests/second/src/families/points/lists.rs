//! The word of each kind in a listing, and lists that just fit or have one entry less.

use super::{accepted, refused};
use crate::corpus::Expected;
use crate::families::parts::{assign, command};
use crate::families::row::{own_order, Row};
use crate::families::script::Script;
use crate::program::{Kind, Program};
use crate::record::Item;

/// All rows.
pub fn rows() -> Vec<Row> {
    let mut rows = listings();
    rows.extend(ring_lists());
    for assigns in [assigns(1, 1, 1), assigns(2, 1, 2), assigns(256, 16, 16)] {
        rows.extend(fits(&assigns));
        rows.push(order_short(&assigns));
    }
    rows.extend(fits(&assigns(0, 1, 1)));
    rows.push(order_short(&assigns(1024, 1, 1)));
    rows
}

/// Listings with their slips: each kind in an order, and assigns, an assume, a read and a load in
/// rings.
fn listings() -> Vec<Row> {
    let row = |what: &str, words: &str, answer, values: &[((usize, usize), u16)]| {
        let script = Script::of(words);
        accepted(what, &script.program, &script.items, answer, values)
    };
    let sevens = [((1, 0), 7), ((1, 2), 7), ((2, 1), 7)];
    vec![
        row(
            "listed-each-kind",
            "i1 a1 s1.0=7 l1.0=7 w1.0>2.1 c r1.2<2.1 c b",
            own_order(7),
            &sevens,
        )
        .with_slip(vec![3, 0, 7, 0, 1])
        .with_listing(
            "order 7\ngroup 0 assign 1 0\ngroup 1 assume 1 1\ngroup 2 store 1 2\n\
             group 3 load 1 3\ngroup 4 write 1 4\ngroup 5 read 1 7\ngroup 6 bar 0 10\n\
             cell 1 0 7\ncell 1 2 7\ncell 2 1 7\n"
                .into(),
        ),
        row(
            "listed-ring-with-assume",
            "i1 w1.0>1.1 a1 s1.0 c",
            Expected::Ring(vec![1, 2, 3]),
            &[],
        )
        .with_slip(vec![1, 0, 4])
        .with_listing("ring 3\ngroup 1 write 1 1\ngroup 2 assume 1 2\ngroup 3 store 1 3\n".into()),
        row(
            "listed-ring-with-read",
            "i2 r2.1<1.0 i2 l2.1 c",
            Expected::Ring(vec![1, 2, 3]),
            &[],
        )
        .with_slip(vec![2, 0, 4])
        .with_listing("ring 3\ngroup 1 read 2 1\ngroup 2 assign 2 2\ngroup 3 load 2 3\n".into()),
    ]
}

/// A ring of two in a record of four groups, two cells: 14 comes by the groups, also where the ring
/// would fit, and before 15.
fn ring_lists() -> Vec<Row> {
    let script = Script::of("k1*2 i1*2");
    let (program, items) = (&script.program, &script.items[..]);
    let ring = accepted("fit-ring", program, items, Expected::Ring(vec![0, 1]), &[]);
    let short = |number, place| refused("fit-ring", program, items, number, place);
    vec![
        ring.with_lists(4, 2),
        short(14, 4).with_lists(3, 2),
        short(14, 4).with_lists(2, 2),
        short(14, 4).with_lists(3, 1),
        short(15, 2).with_lists(4, 1),
    ]
}

/// A program of so many ranks and cells, and a record of so many assigns of rank 1, each a group.
fn assigns(groups: usize, ranks: usize, cells: usize) -> (Program, Vec<Item>) {
    let program = Program {
        ranks,
        cells,
        registers: 1,
        queues: 1,
        states: 1,
        transitions: vec![assign(1)],
    };
    (program, vec![command(Kind::Assign, 1, 0); groups])
}

/// Lists that just fit, and a cell list with one entry less.
fn fits((program, items): &(Program, Vec<Item>)) -> [Row; 2] {
    let (groups, cells) = (items.len(), program.ranks * program.cells);
    let what = format!("fit-{groups}");
    [
        accepted(&what, program, items, own_order(groups), &[]).with_lists(groups, cells),
        refused(&what, program, items, 15, cells).with_lists(groups, cells - 1),
    ]
}

/// An order list with one entry less.
fn order_short((program, items): &(Program, Vec<Item>)) -> Row {
    let (groups, cells) = (items.len(), program.ranks * program.cells);
    let short = refused(&format!("fit-{groups}"), program, items, 14, groups);
    short.with_lists(groups - 1, cells)
}
