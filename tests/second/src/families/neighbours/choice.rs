//! Which entry a pop takes: two transfers of rank 1 on one queue, fetched in either order and
//! delivered in either order, with names where they are needed and everywhere. A wrong choice is
//! told by the place that the item names.

use super::{accepted, issued, own_order, program_of, Transfer};
use super::{R1, R2, R3, W1, W2, W3};
use crate::families::parts::{at, command};
use crate::families::row::Row;
use crate::program::Kind;
use crate::record::Item;

/// Pairs of transfers to different remote ranks: of writes, of reads, of both, and of the own rank.
const PAIRS: [[Transfer; 2]; 8] = [
    [W2, W3],
    [R2, R3],
    [R2, W3],
    [W2, R3],
    [W1, R2],
    [R2, W1],
    [R1, W2],
    [W2, R1],
];

/// All rows of two transfers.
pub fn rows() -> Vec<Row> {
    let mut rows = Vec::new();
    for pair in PAIRS {
        for [fetched, delivered] in [[0, 0], [0, 1], [1, 0], [1, 1]] {
            for names in [Names::Needed, Names::All] {
                rows.push(row(pair, fetched, delivered, names));
            }
        }
    }
    rows
}

/// Which pops name their remote rank.
#[derive(Clone, Copy, PartialEq, Eq)]
enum Names {
    /// Those that take an entry other than the oldest of all.
    Needed,
    /// All.
    All,
}

/// The stores of 5 in cell 0 and 6 in cell 1, of all three ranks.
fn stores() -> Vec<Item> {
    let of = |rank| [0, 1].map(|cell| at(command(Kind::Store, rank, cell), cell));
    [1, 2, 3].into_iter().flat_map(of).collect()
}

/// Six stores, groups 0 to 5, and two transfers, groups 6 and 7, of which the one with this number
/// is fetched first and one is delivered first. No two groups access the same cell but a store, which
/// comes first, and a fetch: so program order alone is left, and the order is the record's own.
///
/// A popa needs a name if it takes the second request while the first waits: the first popa, if it
/// fetches number 1. A popb needs one if it takes the second delivery while the first waits: the
/// first popb, if what was fetched first is not delivered first.
fn row(pair: [Transfer; 2], fetched: usize, delivered: usize, names: Names) -> Row {
    let program = program_of(&pair);
    let mut items = stores();
    items.extend(issued(&pair));
    let all = names == Names::All;
    items.extend([
        pair[fetched].popa_with(all || fetched == 1),
        pair[1 - fetched].popa_with(all),
        pair[delivered].popb_with(all || delivered != fetched),
        pair[1 - delivered].popb_with(all),
    ]);
    let last: Vec<_> = [1, 2, 3]
        .into_iter()
        .flat_map(|rank| [((rank, 0), 5), ((rank, 1), 6)])
        .chain(pair.map(|transfer| (transfer.destination, transfer.value)))
        .collect();
    let which = |number: usize| pair[number].name;
    let what = format!(
        "{}-{}-fetched-{}-delivered-{}-{}",
        pair[0].name,
        pair[1].name,
        which(fetched),
        which(delivered),
        if all {
            "all-named"
        } else {
            "named-where-needed"
        },
    );
    accepted(&what, &program, &items, own_order(8), &last)
}
