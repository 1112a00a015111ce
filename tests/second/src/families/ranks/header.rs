//! N in the header: each number in its range, those outside, and what is told of a header that ends
//! or has another fault.

use super::{accepted, own_order, refused_bytes};
use crate::families::base::join;
use crate::families::row::Row;
use crate::program::Program;

/// A record of no items.
const NO_ITEMS: [u8; 2] = [0, 0];
/// What follows N in the smallest programs: A, R, Q, S and T.
const REST: [u8; 5] = [1, 1, 1, 1, 0];

/// All rows about N in the header.
pub fn rows() -> Vec<Row> {
    let mut rows: Vec<Row> = (1..=16).map(smallest).collect();
    for ranks in [0, 17, 18, 24, 25, 31, 32, 64, 128, 137, 144, 255] {
        let whole = join(&[ranks], &REST);
        rows.push(row(&format!("n-{ranks}"), whole, 2, 0));
        rows.push(row(&format!("n-{ranks}-alone"), vec![ranks], 2, 0));
    }
    rows.extend(others());
    rows
}

/// A refused row of a program, with a record of no items.
fn row(what: &str, program: Vec<u8>, number: u8, place: usize) -> Row {
    refused_bytes(what, [program, NO_ITEMS.to_vec()], number, place)
}

/// The smallest program of so many ranks, and no items: a map without bits, of two bytes from 9 on.
fn smallest(ranks: usize) -> Row {
    let program = Program {
        ranks,
        cells: 1,
        registers: 1,
        queues: 1,
        states: 1,
        transitions: Vec::new(),
    };
    let slip = if ranks < 9 { vec![0] } else { vec![0, 0] };
    accepted(
        &format!("{ranks}-no-items"),
        &program,
        &[],
        own_order(0),
        &[],
    )
    .with_slip(slip)
    .with_listing("order 0\n".into())
}

/// Headers that end after N, or have a fault behind it or before a fault elsewhere.
fn others() -> Vec<Row> {
    let bad_record = [join(&[17], &REST), vec![255, 255]];
    vec![
        row("n-15-alone", vec![15], 1, 1),
        row("n-16-alone", vec![16], 1, 1),
        row("n-9-header-cut", vec![9, 1, 1, 1, 1], 1, 5),
        row("n-16-header-cut", vec![16, 1, 1, 1, 1], 1, 5),
        row("n-9-one-left", join(&[9], &[1, 1, 1, 1, 0, 0]), 1, 6),
        row("n-16-one-left", join(&[16], &[1, 1, 1, 1, 0, 0]), 1, 6),
        row("n-16-a-0", vec![16, 0, 1, 1, 1, 0], 2, 1),
        row("n-16-a-65", vec![16, 65, 1, 1, 1, 0], 2, 1),
        row("n-16-r-17", vec![16, 64, 17, 4, 64, 0], 2, 2),
        row("n-16-q-5", vec![16, 64, 16, 5, 64, 0], 2, 3),
        row("n-16-s-65", vec![16, 64, 16, 4, 65, 0], 2, 4),
        row("n-9-t-129", vec![9, 64, 16, 4, 64, 129], 2, 5),
        row("n-16-t-401", vec![16, 64, 16, 4, 64, 255, 1, 145], 2, 6),
        row("n-17-before-a-0", vec![17, 0, 1, 1, 1, 0], 2, 0),
        row("n-17-before-end", vec![17, 1, 1], 2, 0),
        refused_bytes("n-17-before-record", bad_record, 2, 0),
    ]
}
