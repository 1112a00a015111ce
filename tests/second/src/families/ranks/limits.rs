//! The most that sixteen ranks can have: cells, rows, and all limits at once.

use super::{accepted, machine, own_order, refused};
use crate::families::parts::{at, bar, command, store};
use crate::families::row::Row;
use crate::limits::{MAX_CELLS, MAX_ITEMS, MAX_RANKS};
use crate::program::{Kind, Program, Transition};
use crate::record::Item;

/// All cells of all ranks.
const ALL_CELLS: usize = MAX_RANKS * MAX_CELLS;

/// All rows at the limits.
pub fn rows() -> Vec<Row> {
    let mut rows = vec![
        all_cells(),
        rows_of(16, 64),
        rows_of(15, 68),
        rows_of(9, 113),
    ];
    rows.extend(cell_lists());
    rows.push(row_too_many());
    rows
}

/// A program of all limits but T: sixteen ranks of 64 cells.
fn largest(transitions: Vec<Transition>) -> Program {
    Program {
        cells: MAX_CELLS,
        registers: 16,
        queues: 4,
        states: 64,
        transitions,
        ..machine(MAX_RANKS, &[])
    }
}

/// Each of 1,024 cells is stored to: cell c of each rank takes c + 1.
fn all_cells() -> Row {
    let stores = (0..MAX_CELLS as u16).map(|cell| store(cell, cell + 1));
    let program = largest(stores.collect());
    let mut items = Vec::new();
    let mut last = Vec::new();
    for cell in 0..MAX_CELLS {
        for rank in 1..=MAX_RANKS {
            items.push(at(command(Kind::Store, rank, cell), cell));
            last.push(((rank, cell), cell + 1));
        }
    }
    let mut slip = vec![0xff, 0xff];
    slip.extend([0, 64].repeat(MAX_RANKS));
    let order = own_order(MAX_ITEMS);
    accepted("16-all-cells", &program, &items, order, &last)
        .with_lists(MAX_ITEMS, ALL_CELLS)
        .with_slip(slip)
}

/// So many rows as fit into a record, or nearly.
fn rows_of(ranks: usize, count: usize) -> Row {
    let program = machine(ranks, &[bar()]);
    let row: Vec<Item> = (1..=ranks)
        .map(|rank| command(Kind::Bar, rank, 0))
        .collect();
    let mut listing = format!("order {count}\n");
    for number in 0..count {
        listing.push_str(&format!("group {number} bar 0 {}\n", ranks * number));
    }
    let what = format!("{ranks}-rows-{count}");
    accepted(&what, &program, &row.repeat(count), own_order(count), &[]).with_listing(listing)
}

/// A record full of rows of nine, and the next row begun: 113 rows and seven bars.
fn row_too_many() -> Row {
    let program = machine(9, &[bar()]);
    let bars = (1..=9).map(|rank| command(Kind::Bar, rank, 0));
    let items: Vec<Item> = bars.cycle().take(MAX_ITEMS).collect();
    refused("row-open-at-1024", &program, &items, 12, MAX_ITEMS)
}

/// No items with 1,024 cells: lists that fit, and some of fewer ranks or one entry less.
fn cell_lists() -> Vec<Row> {
    let program = largest(Vec::new());
    let short = |entries| refused("all-cells", &program, &[], 15, ALL_CELLS).with_lists(0, entries);
    vec![
        accepted("16-all-cells-0", &program, &[], own_order(0), &[]).with_lists(0, ALL_CELLS),
        short(ALL_CELLS - 1),
        short(15 * MAX_CELLS),
        short(8 * MAX_CELLS),
        short(0),
    ]
}
