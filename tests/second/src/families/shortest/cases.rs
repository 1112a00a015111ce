//! Cases one by one. An arrow that leads back to a transfer comes from an access at the cell that it
//! is fetched from or delivered to, before the fetch or the delivery.

use super::FAMILY;
use crate::families::row::Row;
use crate::families::script::rows_of;

/// The cases as `rows_of` takes them; a line that begins with `#` says what follows.
const CASES: &str = "
# Knots of one rank, one after the other. What is behind a knot leads to none before it, so each closed
# walk stays in its knot, and the ring is the first of the shortest.
knots-2: k1*2: 0 1
knots-3: k1*3: 0 1 2
knots-4: k1*4: 0 1 2 3
knots-9: k1*9: 0 1 2 3 4 5 6 7 8
knots-2-3: k1*2 k1*3: 0 1
knots-3-2: k1*3 k1*2: 3 4
knots-2-2: k1*2 k1*2: 0 1
knots-3-3: k1*3 k1*3: 0 1 2
knots-4-3-2: k1*4 k1*3 k1*2: 7 8
knots-3-2-2: k1*3 k1*2 k1*2: 3 4
knots-4-3-4-3: k1*4 k1*3 k1*4 k1*3: 4 5 6
knots-5-4-3-4-3: k1*5 k1*4 k1*3 k1*4 k1*3: 9 10 11
knots-6-5: k1*6 k1*5: 6 7 8 9 10
knots-9-8: k1*9 k1*8: 9 10 11 12 13 14 15 16
knots-8-9: k1*8 k1*9: 0 1 2 3 4 5 6 7
knots-3-3-3-3-3-3-3-3-3-3-2-3: k1*3 k1*3 k1*3 k1*3 k1*3 k1*3 k1*3 k1*3 k1*3 k1*3 k1*2 k1*3: 30 31

# Knots of several ranks mixed, all carried at the end; the name has the rank of each group.
woven-1-2-2-1: w1.0>1.1 w2.0>2.1 s2.0 s1.0 c: 0 3
woven-1-2-1-2: w1.0>1.1 w2.0>2.1 s1.0 s2.0 c: 0 2
woven-2-1-1-2: w2.0>2.1 w1.0>1.1 s1.0 s2.0 c: 0 3
woven-1-2-1-2-1: w1.0>1.1 w2.0>2.1 i1 s2.0 s1.0 c: 1 3
woven-2-1-1-2-2: w2.0>2.1 w1.0>1.1 s1.0 i2 s2.0 c: 1 2
woven-1-2-3-3-2-1: w1.0>1.1 w2.0>2.1 w3.0>3.1 s3.0 s2.0 s1.0 c: 0 5
woven-1-2-3-1-3-2-1: w1.0>1.1 w2.0>2.1 w3.0>3.1 i1 s3.0 s2.0 s1.0 c: 1 5
woven-1-1-2-2-1-3-3-2-1-3: w1.0>1.1 i1 w2.0>2.1 i2 i1 w3.0>3.1 i3 s2.0 s1.0 s3.0 c: 2 3 7
woven-1-2-3-1-2-3-1-2-3-1-2: w1.0>1.1 w2.0>2.1 w3.0>3.1 i1 i2 i3 i1 i2 s3.0 s1.0 s2.0 c: 2 5 8

# Rings along one rank's commands that share groups: each store leads back to the write from its cell,
# as the name says, and all are carried at the end. A walk with several arrows back is longer than the
# shortest with one.
overlapping-5-to-0-and-3-to-1: w1.0>1.1 w1.2>1.3 i1 s1.2 i1 s1.0 c: 1 2 3
overlapping-5-to-0-and-3-to-2: w1.0>1.1 i1 w1.2>1.3 s1.2 i1 s1.0 c: 2 3
overlapping-2-to-0-and-5-to-1: w1.0>1.1 w1.2>1.3 s1.0 i1*2 s1.2 c: 0 1 2
overlapping-4-to-0-and-5-to-3: w1.0>1.1 i1*2 w1.2>1.3 s1.0 s1.2 c: 3 4 5
overlapping-3-to-0-and-4-to-1-and-5-to-2: w1.0>1.1 w1.2>1.3 w1.4>1.5 s1.0 s1.2 s1.4 c: 0 1 2 3
overlapping-4-to-0-and-3-to-1-and-5-to-2: w1.0>1.1 w1.2>1.3 w1.4>1.5 s1.2 s1.0 s1.4 c: 1 2 3
overlapping-6-to-0-and-5-to-1-and-4-to-2: w1.0>1.1 w1.2>1.3 w1.4>1.5 i1 s1.4 s1.2 s1.0 c: 2 3 4
overlapping-3-to-0-and-7-to-4: w1.0>1.1 i1*2 s1.0 w1.2>1.3 i1*2 s1.2 c: 0 1 2 3
overlapping-7-to-0-and-2-to-1-and-6-to-5: w1.0>1.1 w1.2>1.3 s1.2 i1*2 w1.4>1.5 s1.4 s1.0 c: 1 2
overlapping-7-to-0-and-4-to-1-and-5-to-2-and-6-to-3: w1.0>1.1 w1.2>1.3 w1.4>1.5 w1.6>1.7 s1.2 s1.4 s1.6 s1.0 c: 1 2 3 4
overlapping-4-to-0-and-6-to-1-and-7-to-2-and-5-to-3: w1.0>1.1 w1.2>1.3 w1.4>1.5 w1.6>1.7 s1.0 s1.6 s1.2 s1.4 c: 3 4 5
overlapping-11-to-0-and-7-to-1-and-10-to-2-and-8-to-5: w1.0>1.1 w1.2>1.3 w1.4>1.5 i1*2 w1.6>1.7 i1 s1.2 s1.6 i1 s1.4 s1.0 c: 5 6 7 8

# Two loads of the cell that group 0 writes to: both lead back to it, and the ring ends with the first.
loads-next-to-each-other: w1.0>1.1 l1.1 l1.1 c: 0 1
loads-far-apart: w1.0>1.1 l1.1 i1*3 l1.1 c: 0 1
loads-far-behind: w1.0>1.1 i1*3 l1.1 l1.1 c: 0 1 2 3 4
loads-both-far: w1.0>1.1 i1*2 l1.1 i1*2 l1.1 c: 0 1 2 3

# Circles: each rank writes to cell 1 of the next, and its own load leads back to the write of the one
# before. Those that come later lead to none before them.
circles-of-3-2: w1.0>2.1 l1.1 w2.0>3.1 l2.1 w3.0>1.1 l3.1 c w2.0>3.1 l2.1 w3.0>2.1 l3.1 c: 6 7 8 9
circles-of-2-3: w1.0>2.1 l1.1 w2.0>1.1 l2.1 c w1.0>2.1 l1.1 w2.0>3.1 l2.1 w3.0>1.1 l3.1 c: 0 1 2 3
circles-of-3-3: w1.0>2.1 l1.1 w2.0>3.1 l2.1 w3.0>1.1 l3.1 c w3.0>2.1 l3.1 w2.0>1.1 l2.1 w1.0>3.1 l1.1 c: 0 1 4 5 2 3
circles-of-3-1: w1.0>2.1 l1.1 w2.0>3.1 l2.1 w3.0>1.1 l3.1 c w3.0>3.1 l3.1 c: 6 7
circles-of-4-3-3: w1.0>2.1 l1.1 w2.0>3.1 l2.1 w3.0>4.1 l3.1 w4.0>1.1 l4.1 c w4.0>2.1 l4.1 w2.0>3.1 l2.1 w3.0>4.1 l3.1 c w1.0>2.1 l1.1 w2.0>3.1 l2.1 w3.0>1.1 l3.1 c: 8 9 12 13 10 11
circle-rising: w1.0>3.1 l1.1 w2.0>1.1 l2.1 w3.0>2.1 l3.1 c: 0 1 2 3 4 5
circle-writes-first: w1.0>2.1 w2.0>3.1 w3.0>4.1 w4.0>1.1 l1.1 l2.1 l3.1 l4.1 c: 0 4 3 7 2 6 1 5

# A fan: a write to cell 1 of rank 2, 0, and a row, 1, which leads to the next command of each rank.
# Who loads or fetches that cell before the delivery leads back to 0. Before a case stand its other rings.
fan-alone: w1.0>2.1 b l2.1 c: 0 1 2
fan-last-first: w1.0>2.1 b r4.2<2.1 n r3.2<2.1 n l2.1 c: 0 1 2
fan-own-too: w1.0>2.1 b l2.1 r3.2<2.1 n r4.2<2.1 n r1.2<2.1 n c: 0 1 2
fan-twice: w1.0>2.1 b i2 l2.1 l2.1 c: 0 1 2 3
# also 0 1 2 3
fan-shorter-later: w1.0>2.1 b i4 r4.2<2.1 n r3.2<2.1 n c: 0 1 4
# also 0 1 3 4
fan-crossed: w1.0>2.1 b i4 i3 r3.2<2.1 n r4.2<2.1 n c: 0 1 2 5
# also 0 1 3 5
fan-side-by-side: w1.0>2.1 b i4 i3 r4.2<2.1 n r3.2<2.1 n c: 0 1 2 4
# also 0 1 2 3 4
fan-long-first: w1.0>2.1 b i3*2 r3.2<2.1 n i2 l2.1 c: 0 1 5 6
# also 0 1 4 5 6
fan-low-then-high: w1.0>2.1 b i3*2 i2*2 l2.1 r3.2<2.1 n c: 0 1 2 3 7
# also 0 1 3 4 6 and 0 1 8 9 10
fan-three: w1.0>2.1 b i3 i2*2 i3 l2.1 r3.2<2.1 n i4*2 r4.2<2.1 n c: 0 1 2 5 7
fan-of-9: w1.0>2.1 b i9 r9.2<2.1 n r8.2<2.1 n l2.1 c: 0 1 4
fan-of-16: w1.0>2.1 b r16.2<2.1 n l2.1 r9.2<2.1 n c: 0 1 2

# Two ways behind a row: 4 is delivered where 0 will be, and so leads to it, and 6 is delivered where 4
# is fetched. The other ring, 0 1 6 4, would come first if its numbers were sorted.
fan-listed-and-not-sorted: w1.0>2.1 b i4*2 w4.0>2.1 i2 w3.0>4.0 c6 c4 l2.1 c: 0 1 5 7

# Rings through rows alone.
rows-1-then-1: w1.0>2.1 b l2.1 c w1.0>2.1 b l2.1 c: 0 1 2
rows-2-then-1: w1.0>2.1 b b l2.1 c w1.0>2.1 b l2.1 c: 4 5 6
rows-1-then-2: w1.0>2.1 b l2.1 c w1.0>2.1 b b l2.1 c: 0 1 2
rows-4-then-3: w1.0>2.1 b b b b l2.1 c w1.0>2.1 b b b l2.1 c: 6 7 8 9 10

# Two ways from group 0: by program order to the idle command and the load of rank 1; by conflict to the
# store of rank 2, behind the fetch, and the read behind it. Each rank's two come in all orders.
two-ways-1-1-2-2: r1.1<2.0 f i1 l1.1 s2.0 r2.2<1.1 n c: 0 1 2
two-ways-1-2-1-2: r1.1<2.0 f i1 s2.0 l1.1 r2.2<1.1 n c: 0 1 3
two-ways-1-2-2-1: r1.1<2.0 f i1 s2.0 r2.2<1.1 n l1.1 c: 0 1 4
two-ways-2-1-1-2: r1.1<2.0 f s2.0 i1 l1.1 r2.2<1.1 n c: 0 1 4
two-ways-2-1-2-1: r1.1<2.0 f s2.0 i1 r2.2<1.1 n l1.1 c: 0 1 3
two-ways-2-2-1-1: r1.1<2.0 f s2.0 r2.2<1.1 n i1 l1.1 c: 0 1 2

# Ranks 1 and 2 write their cells 0 to each other, and rank 1 reads that of rank 2; all are fetched
# before any is delivered. The write of rank 1 is in a ring with each of the others.
two-partners-write-second: w1.0>2.0 w2.0>1.0 r1.1<2.0 f d: 0 1
two-partners-read-second: w1.0>2.0 r1.1<2.0 w2.0>1.0 f d: 0 1
two-partners-other-rank-first: w2.0>1.0 w1.0>2.0 r1.1<2.0 f d: 0 1

# Tails: group 0 reads what a ring of rank 1 has delivered. It and what follows in its rank are behind
# the ring and in none, though they are the lowest. Rank 3 has another ring at the end.
tail-1-of-2-then-3: r2.2<1.1 k1*2 c k3*3: 1 2
tail-1-of-3-then-3: r2.2<1.1 k1*3 c k3*3: 1 2 3
tail-1-of-3-then-2: r2.2<1.1 k1*3 c k3*2: 4 5
tail-2-of-4-then-5: r2.2<1.1 i2 k1*4 c k3*5: 2 3 4 5
tail-4-of-2-then-2: r2.2<1.1 i2*3 k1*2 c k3*2: 4 5
tail-4-of-5-then-4: r2.2<1.1 i2*3 k1*5 c k3*4: 9 10 11 12
tail-7-of-4-then-2: r2.2<1.1 i2*6 k1*4 c k3*2: 11 12

# Groups before a ring, which can be placed, and behind it, which cannot; then another ring.
around-alone: i1*3 s2.1 k1*3 i1*2 w1.0>2.1 c l2.1: 4 5 6
around-as-long: i1*3 s2.1 k1*3 i1*2 w1.0>2.1 c l2.1 k2*3: 4 5 6
around-shorter: i1*3 s2.1 k1*3 i1*2 w1.0>2.1 c l2.1 k2*2: 11 12

# No ring: a write fetched before the store behind it; circles delivered before the loads; a look after
# the delivery; a load before it; and a circle in which rank 1 does not load, so that 2 leads to 0, 4 to
# 1, and nothing to 3.
order-fetched-early: w1.0>1.1 c s1.0: (0 1)
order-circle-delivered: w1.0>2.1 w2.0>3.1 w3.0>1.1 c l1.1 l2.1 l3.1: (0 1 2 3 4 5)
order-fan-delivered: w1.0>2.1 b c l2.1: (0 1 2)
order-load-first: w1.0>2.1 l2.1 c: (1 0)
order-circle-open: w1.0>2.1 w2.0>3.1 l2.1 w3.0>1.1 l3.1 c: (3 4 1 2 0)
order-of-none:: ()
";

/// All rows.
pub fn rows() -> Vec<Row> {
    rows_of(FAMILY, CASES)
}
