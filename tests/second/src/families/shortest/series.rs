//! Cases in series: knots of each kind and of sixteen ranks, circles of ranks, and long records.

use super::ring;
use crate::families::row::Row;

/// All rows.
pub fn rows() -> Vec<Row> {
    let parts = [of_each_kind(), woven(), circles(), long()];
    parts.into_iter().flatten().collect()
}

/// The numbers from one on, so many.
fn from(first: usize, count: usize) -> Vec<u16> {
    (first..first + count).map(|group| group as u16).collect()
}

/// A transfer from cell 0 to cell 1 of rank 2, and an access of that rank before the fetch or the
/// delivery, which leads back to it.
const KINDS: [(&str, &str, &str); 6] = [
    ("write-source-stored", "w2.0>2.1", "s2.0"),
    ("write-destination-stored", "w2.0>2.1", "s2.1"),
    ("write-destination-loaded", "w2.0>2.1", "l2.1"),
    ("read-source-stored", "r2.1<2.0", "s2.0"),
    ("read-destination-stored", "r2.1<2.0", "s2.1"),
    ("read-destination-loaded", "r2.1<2.0", "l2.1"),
];

/// Each of these in a ring of 2, 3 and 4 groups, behind a knot with one group more.
fn of_each_kind() -> Vec<Row> {
    let row = |(name, transfer, access): (&str, &str, &str), length: usize| {
        let words = format!("k2*{} {transfer} i2*{} {access} c", length + 1, length - 2);
        let groups = from(length + 1, length);
        ring(&format!("{name}-{length}"), &words, groups)
    };
    let of_kind = |kind| (2..5).map(move |length| row(kind, length));
    KINDS.into_iter().flat_map(of_kind).collect()
}

/// The words once for each number, which stands where they have a `#`.
fn each(numbers: impl Iterator<Item = usize>, words: &str) -> String {
    numbers
        .map(|number| words.replace('#', &number.to_string()))
        .collect()
}

/// Knots of sixteen ranks mixed: there and back, where that of rank 1 is the ring; and in rounds,
/// where ranks 1 to 15 have three commands each, and rank 16 two.
fn woven() -> Vec<Row> {
    let writes = each(1..=16, "w#.0>#.1 ");
    let back = each((1..=16).rev(), "s#.0 ");
    let rounds = each(1..=15, "i# ") + "s16.0 " + &each(1..=15, "s#.0 ");
    let row = |name: &str, rest: &str, groups| ring(name, &format!("{writes}{rest}c"), groups);
    vec![
        row("woven-16-there-and-back", &back, vec![0, 31]),
        row("woven-16-in-rounds", &rounds, vec![15, 31]),
    ]
}

/// Circles of 1 to 16 ranks: each writes to cell 1 of the next and then loads its own cell 1, rank by
/// rank, and all are carried after that. Program order leads from each write to the load of its rank,
/// and the load of the next rank leads back to the write: the ring has the write and the load of the
/// first rank, then those of the last, and so on back to the second.
fn circles() -> Vec<Row> {
    let circle = |ranks: usize| {
        let word = |rank: usize| format!("w{rank}.0>{}.1 l{rank}.1 ", rank % ranks + 1);
        let words = (1..=ranks).map(word).collect::<String>() + "c";
        let places = [0].into_iter().chain((1..ranks).rev());
        let groups = places.flat_map(|place| from(2 * place, 2)).collect();
        ring(&format!("circle-of-{ranks}"), &words, groups)
    };
    (1..=16).map(circle).collect()
}

/// Long records in which the ring is far to seek:
///
/// - a ring of all 1,020 groups of one rank, and within it near its end one of two;
/// - 204 knots of three groups and five items each, of 16 ranks by turns, and one of two behind them;
/// - 256 knots of two groups and four items each, all as short;
/// - knots of 42 groups, 41, and so on down to 2: 902 groups in all, the last two the ring;
/// - a write to rank 2; 30 times a row and an idle command of each of sixteen ranks; a row and a load
///   of rank 2. Each row leads to sixteen idle commands, and each of these to the next row: the ring
///   could go 16 to the power of 30 ways, all as long, and takes the first idle command each time. A
///   row and its idle commands are 17 groups.
fn long() -> Vec<Row> {
    let of_three = each((0..204).map(|turn| turn % 16 + 1), "k#*3 ");
    let of_two = each((0..256).map(|turn| turn % 4 + 1), "k#*2 ");
    let falling = each((2..=42).rev(), "k1*# ");
    let stages = format!("b {}", each((1..=16).rev(), "i# ")).repeat(30);
    let rows_and_idle = (0..=30).flat_map(|stage| from(1 + 17 * stage, 2));
    let first_ways = [0].into_iter().chain(rows_and_idle).collect();
    let inner = "w1.0>1.1 i1*1015 w1.2>1.3 s1.2 i1 s1.0 c";
    vec![
        ring("long-inner", inner, from(1_016, 2)),
        ring("long-last-of-many", &(of_three + "k16*2"), from(612, 2)),
        ring("long-all-as-long", &of_two, from(0, 2)),
        ring("long-falling", &falling, from(900, 2)),
        ring(
            "long-many-ways",
            &format!("w1.0>2.1 {stages} b l2.1 c"),
            first_ways,
        ),
    ]
}
