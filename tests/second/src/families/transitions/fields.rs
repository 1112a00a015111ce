//! The transition's two bytes in an item: every fault of the high byte, of the bytes before it, and
//! of the low byte where it stands alone.

use super::build::{
    assign, assume, at, bar, command, giving, load, read, sparse, store, write, CELLS,
};
use super::refused_bytes;
use crate::families::base::{one, several};
use crate::families::row::Row;
use crate::program::{Kind, Program, Transition};
use crate::record::Item;

/// A form of item whose map has bit 7.
struct High {
    /// What the cases' names call it.
    name: &'static str,
    /// The item, which takes transition 257.
    item: Item,
    /// The high byte's place in a record of this item alone, after the item count, map, kind, rank,
    /// low byte, and the place of three bytes and the value of two, if there are.
    high: usize,
}

/// The number of the transition that the items take.
const NUMBER: usize = 257;

/// Each form of item whose map has bit 7.
fn forms() -> Vec<High> {
    let form = |name, kind, high| {
        let item = command(kind, 1, NUMBER);
        High { name, item, high }
    };
    let placed = |name, kind| {
        let item = at(command(kind, 1, NUMBER), 0);
        High {
            name,
            item,
            high: 9,
        }
    };
    let valued = |name, kind| {
        let item = giving(at(command(kind, 1, NUMBER), 0), 0);
        High {
            name,
            item,
            high: 11,
        }
    };
    vec![
        placed("load", Kind::Load),
        valued("load-with-value", Kind::Load),
        placed("store", Kind::Store),
        valued("store-with-value", Kind::Store),
        form("assign", Kind::Assign, 6),
        form("assume", Kind::Assume, 6),
        form("read", Kind::Read, 6),
        form("write", Kind::Write, 6),
        form("bar", Kind::Bar, 6),
    ]
}

/// The transition that an item of this kind takes.
fn transition(kind: Kind) -> Transition {
    match kind {
        Kind::Load => load(0),
        Kind::Store => store(0, 0),
        Kind::Assign => assign(1),
        Kind::Assume => assume(1),
        Kind::Read => read(0, 2, 0),
        Kind::Write => write(0, 2, 0),
        Kind::PopA | Kind::PopB | Kind::Bar => bar(),
    }
}

/// A program of so many transitions for a form of item: the one that it takes, if there are so
/// many, and, for the low byte alone, number 1 of the same kind.
fn program(form: &High, size: usize) -> Program {
    let transition = transition(form.item.act.kind());
    let mut placed = vec![(1, transition.clone())];
    if NUMBER < size {
        placed.push((NUMBER, transition));
    }
    sparse(size, &placed)
}

/// The item's bytes.
fn bytes(item: &Item) -> Vec<u8> {
    let mut bytes = Vec::new();
    item.write(&mut bytes);
    bytes
}

/// The place of an item's low byte in its bytes.
const LOW: usize = 3;
/// The place of an item's rank in its bytes.
const RANK: usize = 2;
/// The place of a place's rank in an item's bytes.
const OWNER: usize = 4;
/// The place of a place's cell in an item's bytes.
const CELL: usize = 5;

/// An item's bytes with this transition in two bytes, whatever they say.
fn numbered(form: &High, low: u8, high: u8) -> Vec<u8> {
    let mut bytes = bytes(&form.item);
    bytes[LOW] = low;
    bytes.pop();
    bytes.push(high);
    bytes
}

/// A refused row of one item's bytes beside a program of so many transitions.
fn row(what: &str, form: &High, size: usize, item: &[u8], refusal: (u8, usize)) -> Row {
    let what = format!("{}-in-{size}-{what}", form.name);
    let inputs = [program(form, size).to_bytes(), one(item)];
    refused_bytes(&what, inputs, refusal.0, refusal.1)
}

/// All rows about the transition's bytes.
pub fn rows() -> Vec<Row> {
    let mut rows = Vec::new();
    for form in forms() {
        rows.extend(high_bytes(&form));
        rows.extend(small_programs(&form));
        rows.extend(cut_items(&form));
        rows.extend(faults_before(&form));
    }
    rows.extend(other_sizes());
    rows.extend(low_bytes_alone());
    rows.extend(bytes_shifted());
    rows
}

/// High bytes that are 0 or make the number too high, beside programs of more than 256 transitions.
fn high_bytes(form: &High) -> Vec<Row> {
    let at_high = (5, form.high);
    let of =
        |what: &str, size, low, high| row(what, form, size, &numbered(form, low, high), at_high);
    vec![
        of("high-0", 258, 1, 0),
        of("high-1-one-too-high", 258, 2, 1),
        of("high-255", 258, 255, 255),
    ]
}

/// The same beside programs of at most 256 transitions, where no high byte is right, and the low
/// byte is not judged alone.
fn small_programs(form: &High) -> Vec<Row> {
    let at_high = (5, form.high);
    let of =
        |what: &str, size, low, high| row(what, form, size, &numbered(form, low, high), at_high);
    vec![
        of("high-0", 2, 1, 0),
        of("high-1", 2, 1, 1),
        of("low-2-high-0", 2, 2, 0),
        of("low-255-high-1", 2, 255, 1),
    ]
}

/// Numbers beside programs of other sizes: those below 256 in two bytes, T, and more.
fn other_sizes() -> Vec<Row> {
    let mut rows = Vec::new();
    let mut of = |name: &str, size, low, high| {
        for form in forms().iter().filter(|form| form.name == name) {
            let what = format!("low-{low}-high-{high}");
            let item = numbered(form, low, high);
            rows.push(row(&what, form, size, &item, (5, form.high)));
        }
    };
    for (size, low, high) in [
        (128, 0, 1),
        (128, 127, 0),
        (129, 128, 0),
        (129, 0, 1),
        (200, 250, 1),
        (255, 255, 0),
        (255, 255, 1),
        (256, 0, 1),
        (256, 255, 0),
        (257, 1, 1),
        (257, 0, 0),
        (400, 143, 0),
        (400, 144, 1),
        (400, 255, 1),
        (400, 0, 2),
        (400, 143, 129),
    ] {
        of("assign", size, low, high);
    }
    for (size, low, high) in [(128, 0, 1), (200, 250, 1), (256, 0, 1), (400, 144, 1)] {
        of("load-with-value", size, low, high);
    }
    rows
}

/// Items that end before the high byte, or in the fields before it: 4 at the length. Of the longest
/// form each byte is once the first that is missing.
fn cut_items(form: &High) -> Vec<Row> {
    let whole = numbered(form, 1, 1);
    let mut rows = Vec::new();
    let longest = form.name == "load-with-value";
    let shortest = if longest { 0 } else { whole.len() - 2 };
    for length in shortest..whole.len() {
        let item = &whole[..length];
        rows.push(row("cut", form, 2, item, (4, 2 + length)));
    }
    let mut bad_low = numbered(form, 200, 1);
    bad_low.pop();
    rows.push(row("low-200-no-high", form, 2, &bad_low, (4, form.high)));
    if LARGE.contains(&form.name) {
        let item = &whole[..whole.len() - 1];
        rows.push(row("no-high", form, 258, item, (4, form.high)));
    }
    rows
}

/// The forms with which faults are also shown beside larger programs.
const LARGE: [&str; 3] = ["store-with-value", "read", "bar"];

/// Fields that are outside their range before a high byte that is, too: the first is told.
fn faults_before(form: &High) -> Vec<Row> {
    let mut rows = Vec::new();
    let mut of = |what: &str, size, changes: &[(usize, u8)], place| {
        let mut item = numbered(form, 255, 0);
        for &(at, byte) in changes {
            item[at] = byte;
        }
        rows.push(row(what, form, size, &item, (5, place)));
    };
    let large: &[usize] = if LARGE.contains(&form.name) {
        &[200, 258]
    } else {
        &[]
    };
    for &size in [&[2], large].concat().iter() {
        of("rank-0-before-high-0", size, &[(RANK, 0)], 4);
        if form.item.place.is_some() {
            of("place-rank-3-before-high-0", size, &[(OWNER, 3)], 6);
            let cell = CELLS as u8;
            of("cell-8-before-high-0", size, &[(CELL + 1, cell)], 7);
        }
    }
    of("rank-3-before-high-0", 2, &[(RANK, 3)], 4);
    if form.item.place.is_some() {
        of("place-rank-0-before-high-0", 2, &[(OWNER, 0)], 6);
        of("cell-256-before-high-0", 2, &[(CELL, 1)], 7);
    }
    rows
}

/// The low byte alone, without bit 7: T or more is 5 at that byte, wherever T lies.
fn low_bytes_alone() -> Vec<Row> {
    let mut rows = Vec::new();
    for (size, low) in [
        (0, 0),
        (1, 1),
        (128, 128),
        (129, 129),
        (129, 255),
        (200, 200),
        (255, 255),
    ] {
        let inputs = [sparse(size, &[]).to_bytes(), one(&[3, 3, 1, low])];
        let what = format!("low-{low}-alone-in-{size}");
        rows.push(refused_bytes(&what, inputs, 5, 5));
    }
    rows
}

/// Items with a high byte too few or too many, so that the bytes behind are read as others.
fn bytes_shifted() -> Vec<Row> {
    let program = sparse(260, &[(1, assign(1)), (257, assign(2))]);
    let (short, long) = (command(Kind::Assign, 1, 1), command(Kind::Assign, 1, 257));
    let (short, long) = (bytes(&short), bytes(&long));
    let headless = &long[..long.len() - 1];
    let longer = [&short[..], &[1]].concat();
    let of = |what: &str, items: &[&[u8]], refusal: (u8, usize)| {
        let inputs = [program.to_bytes(), several(items)];
        refused_bytes(what, inputs, refusal.0, refusal.1)
    };
    vec![
        // The next item's map is read as the high byte: 3 is too high.
        of("next-map-3-as-high", &[headless, &short], (5, 6)),
        of("next-map-131-as-high", &[headless, &long], (5, 6)),
        // A byte behind the last item is left over; behind another it is a map, 1, of kind 131.
        of("high-left-over", &[&longer], (4, 6)),
        of("high-as-next-map", &[&longer, &long], (6, 7)),
        of("second-high-0", &[&long, &[131, 3, 1, 1, 0]], (5, 11)),
        of("second-no-high", &[&long, headless], (4, 11)),
        of("second-too-high", &[&short, &[131, 3, 2, 4, 1]], (5, 10)),
        of("third-rank-0", &[&long, &long, &[131, 3, 0, 4, 1]], (5, 14)),
        of(
            "bad-high-before-kind",
            &[&[131, 3, 1, 1, 0], &[3, 0]],
            (5, 6),
        ),
        of("bad-kind-after-high", &[&long, &[131, 0]], (6, 8)),
        of("bad-map-after-high", &[&long, &[128, 3]], (6, 7)),
    ]
}
