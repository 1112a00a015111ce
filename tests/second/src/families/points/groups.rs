//! Which ring comes first, and which group next in an order. All cells are 0.

use super::FAMILY;
use crate::families::row::Row;
use crate::families::script::rows_of;

/// The cases, as `rows_of` takes them.
const CASES: &str = "
# Rings as long, each along one rank, their groups by turns: the first is the one with the lowest group,
# wherever its other groups lie.
rings-0-2-and-1-3: r1.1<1.0 r2.1<2.0 l1.1 l2.1 c: 0 2
rings-0-3-and-1-4-and-2-5: w1.0>1.1 w2.0>2.1 w3.0>3.1 s1.0 s2.0 s3.0 c: 0 3
rings-0-5-and-1-2-and-3-4: w1.0>1.1 w2.0>2.1 s2.0 w3.0>3.1 s3.0 s1.0 c: 0 5
rings-0-2-4-and-1-3-5: w1.0>1.1 w2.0>2.1 i1 i2 s1.0 s2.0 c: 0 2 4
# The same behind a group that can be placed, and with one that is behind the first ring and in none.
rings-1-3-and-2-4-behind-0: i4 w1.0>1.1 w2.0>2.1 s1.0 s2.0 c: 1 3
rings-1-3-and-2-4-before-0: r4.2<1.1 w1.0>1.1 w2.0>2.1 s1.0 s2.0 c1 c: 1 3

# A ring of three beside a longer one with lower groups.
rings-0-2-4-6-and-1-3-5: w1.0>1.1 w2.0>2.1 i1 i2 i1 s2.0 s1.0 c: 1 3 5
rings-0-4-5-6-and-1-2-3: w1.0>1.1 w2.0>2.1 i2 s2.0 i1*2 s1.0 c: 1 2 3
rings-0-1-2-3-and-4-5-6: k1*4 k2*3: 4 5 6

# Two ways from group 0, which is fetched: by program order along rank 1 to a load of the cell that it is
# delivered to; by conflict to a store of rank 2 at the cell that it was fetched from, and along rank 2
# to a read of that other cell. The second number decides, whatever the later ones are: the other ring
# is 0 2 3 5.
second-number-of-rank-1: r1.1<2.0 f i1 s2.0 i2 i1 r2.2<1.1 n l1.1 c: 0 1 4 6
second-number-of-rank-2: r1.1<2.0 f s2.0 i1 i1 i2 l1.1 r2.2<1.1 n c: 0 1 4 6
# The same with a row: 0 1 3, 0 1 5 and 0 2 4.
second-and-third-number: r1.1<2.0 f b s2.0 r3.2<1.1 n r2.2<1.1 n l1.1 c: 0 1 3

# A write and two rows, which have one way; behind them several ranks look before the delivery. The other
# rings are 0 1 2 4, and 0 1 2 4 5.
fourth-number-of-4: w1.0>2.1 b b r4.2<2.1 n l2.1 c: 0 1 2 3
fourth-number-of-5: w1.0>2.1 b b i4 i3 r3.2<2.1 n r4.2<2.1 n c: 0 1 2 3 6

# Orders: a write whose delivery comes behind a load of the cell is free as soon as the load is placed,
# and then comes before all that are higher, be they free for long. Before a case stand its arrows
# against the numbers.
# 1 to 0
order-freed-by-1: w1.0>2.1 l2.1 i3*2 c: (1 0 2 3)
# 5 to 0
order-freed-by-5: w1.0>2.1 i3*4 l2.1 i3 c: (1 2 3 4 5 0 6)
# 3 to 0, which 1 and 2 follow in its rank
order-freed-with-two-behind: w1.0>2.1 i1*2 l2.1 i3*2 c: (3 0 1 2 4 5)
# 1 and 3 to 0
order-freed-by-two: w1.0>2.1 l2.1 i4 r3.2<2.1 n i4 c: (1 2 3 0 4)
# 2 to 0 and 3 to 1
order-freed-two-in-turn: w1.0>3.1 w2.0>3.2 l3.1 l3.2 i4 c: (2 0 3 1 4)
# 3 to 2, 4 to 0 and 5 to 1
order-freed-three-in-turn: w1.0>4.1 w2.0>4.2 w3.0>4.3 l4.3 l4.1 l4.2 i5 c: (3 2 4 0 5 1 6)
# 3 to 1, which 2 follows in its rank, and 2 to 0
order-freed-in-a-chain: w1.0>2.1 w2.0>3.1 l2.1 l3.1 i4 c: (3 1 2 0 4)
# 1 to 0, which the row follows
order-freed-before-a-row: w1.0>2.1 l2.1 b i3 c: (1 0 2 3)
";

/// All rows.
pub fn rows() -> Vec<Row> {
    rows_of(FAMILY, CASES)
}
