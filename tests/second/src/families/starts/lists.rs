//! Cases of the writer and of the reader of start bytes as calls: every length of the list and of
//! the memory about what is needed, and which refusal comes first.

use super::build::{bare, full_start, map_of, rank_bytes, start, Readings};
use crate::corpus::{Case, StartReadCase, StartWriteCase};
use crate::families::base::join;
use crate::generator::starts::{start_read_case, start_write_case};
use crate::limits::Refusal;

/// How many generated cases there are for each of the two.
const GENERATED: u64 = 40;
/// The most bytes of a generated case's start, and the most entries of its list.
const LARGEST: usize = 120;

/// The case if its answer is this, and else a fault.
fn checked<T: std::fmt::Debug + PartialEq>(
    case: Case,
    (found, by_hand): (Result<T, Refusal>, Result<T, (u8, usize)>),
) -> Result<Case, String> {
    let by_hand = by_hand.map_err(|(number, place)| Refusal { number, place });
    if found == by_hand {
        return Ok(case);
    }
    Err(format!("{}: {found:?}, by hand {by_hand:?}", case.name()))
}

/// A case of the writer with its answer by hand.
fn write(
    what: &str,
    program: &[u8],
    cells: &[u16],
    start_bytes: usize,
    answer: Result<Vec<u8>, (u8, usize)>,
) -> Result<Case, String> {
    let name = format!("start-write-{what}");
    let (program, cells) = (program.to_vec(), cells.to_vec());
    let case = StartWriteCase::answered(name, program, cells, start_bytes);
    let found = case.answer.clone();
    checked(Case::StartWrite(case), (found, answer))
}

/// A case of the reader with its answer by hand.
fn read(
    what: &str,
    program: &[u8],
    start: &[u8],
    cell_entries: usize,
    answer: Result<Vec<u16>, (u8, usize)>,
) -> Result<Case, String> {
    let name = format!("start-read-{what}");
    let (program, start) = (program.to_vec(), start.to_vec());
    let case = StartReadCase::answered(name, program, start, cell_entries);
    let found = case.answer.clone();
    checked(Case::StartRead(case), (found, answer))
}

/// All cases: by hand, then generated ones.
pub fn cases(seed: u64) -> Result<Vec<Case>, String> {
    let by_hand = [both_ways(), written(), program_faults(), read_only()];
    let mut cases: Vec<Case> = by_hand.into_iter().flatten().collect::<Result<_, _>>()?;
    cases.extend(generated(seed));
    Ok(cases)
}

/// A cell list of so many entries with these values, by their places in the list.
fn list(entries: usize, values: &[(usize, u16)]) -> Vec<u16> {
    let mut list = vec![0; entries];
    for &(at, value) in values {
        list[at] = value;
    }
    list
}

/// One start of a machine, both ways: so many ranks and cells, and the readings of each rank.
pub type Sample<'a> = (&'a str, (usize, usize), &'a [Readings<'a>]);

/// Starts that are written and read.
fn both_ways() -> Vec<Result<Case, String>> {
    let samples: [Sample; 12] = [
        ("1-by-1", (1, 1), &[&[(0, 7)]]),
        ("1-by-1-full-value", (1, 1), &[&[(0, 65_535)]]),
        ("1-by-1-zero", (1, 1), &[&[]]),
        ("1-by-8", (1, 8), &[&[(0, 256), (7, 1)]]),
        ("1-by-9", (1, 9), &[&[(7, 2), (8, 513)]]),
        ("1-by-63", (1, 63), &[&[(0, 3), (62, 4)]]),
        ("1-by-64", (1, 64), &[&[(0, 3), (63, 4)]]),
        ("2-by-2", (2, 2), &[&[(0, 1), (1, 2)], &[(0, 2), (1, 1)]]),
        ("2-by-64-zero", (2, 64), &[&[], &[]]),
        (
            "8-by-2",
            (8, 2),
            &[&[], &[], &[], &[], &[], &[], &[], &[(1, 5)]],
        ),
        (
            "9-by-1",
            (9, 1),
            &[&[(0, 8)], &[], &[], &[], &[], &[], &[], &[], &[(0, 9)]],
        ),
        (
            "3-by-3",
            (3, 3),
            &[&[(2, 300)], &[], &[(1, 65_534), (2, 1)]],
        ),
    ];
    samples.into_iter().flat_map(both_ways_of).collect()
}

/// A start written and read: the list and the memory as long as needed, longer, an entry or a byte
/// short, and empty.
pub fn both_ways_of((what, (ranks, cells), readings): Sample) -> Vec<Result<Case, String>> {
    let program = bare(ranks as u8, cells as u8);
    let bytes = start(readings);
    let of_rank = |(rank, readings): (usize, &Readings)| {
        let at = move |&(cell, value): &(usize, u16)| (cells * rank + cell, value);
        readings.iter().map(at).collect::<Vec<_>>()
    };
    let values: Vec<(usize, u16)> = readings.iter().enumerate().flat_map(of_rank).collect();
    let entries = ranks * cells;
    let list = list(entries, &values);
    let beyond = [&list[..], &[1, 65_535, 0]].concat();
    let (short_list, short_memory) = (Err((15, entries)), Err((15, bytes.len())));
    let named = |how: &str| format!("{what}-{how}");
    let exact = bytes.len();
    let mut cases = vec![
        write(&named("exact"), &program, &list, exact, Ok(bytes.clone())),
        write(
            &named("longer"),
            &program,
            &beyond,
            exact + 3,
            Ok(bytes.clone()),
        ),
        write(
            &named("memory-short"),
            &program,
            &list,
            exact - 1,
            short_memory.clone(),
        ),
        write(&named("no-memory"), &program, &beyond, 0, short_memory),
        write(
            &named("list-short"),
            &program,
            &list[..entries - 1],
            exact,
            short_list.clone(),
        ),
        write(
            &named("both-short"),
            &program,
            &list[..entries - 1],
            7,
            short_list.clone(),
        ),
        write(&named("nothing"), &program, &[], 0, short_list),
    ];
    let short_list = Err((15, entries));
    cases.extend([
        read(&named("exact"), &program, &bytes, entries, Ok(list.clone())),
        read(
            &named("longer"),
            &program,
            &bytes,
            entries + 2,
            Ok(list.clone()),
        ),
        read(
            &named("list-short"),
            &program,
            &bytes,
            entries - 1,
            short_list.clone(),
        ),
        read(&named("no-list"), &program, &bytes, 0, short_list),
    ]);
    cases
}

/// The writer alone: the maps also if all is 0, the full start of the largest machine, and values
/// beyond the list's end, which would be another rank's.
fn written() -> Vec<Result<Case, String>> {
    let sixteen = bare(16, 64);
    let mut ends = vec![0; 16 * 64];
    (ends[0], ends[1023]) = (5, 6);
    let ends_bytes = [rank_bytes(&[(0, 5)]), vec![0; 112], rank_bytes(&[(63, 6)])].concat();
    vec![
        write(
            "16-by-64-full",
            &sixteen,
            &[258; 1024],
            2176,
            Ok(full_start()),
        ),
        write(
            "16-by-64-full-memory-short",
            &sixteen,
            &[258; 1024],
            2175,
            Err((15, 2176)),
        ),
        write(
            "16-by-64-list-short",
            &sixteen,
            &[258; 1023],
            2176,
            Err((15, 1024)),
        ),
        write("16-by-64-zero", &sixteen, &[0; 1024], 128, Ok(vec![0; 128])),
        write(
            "16-by-64-zero-memory-short",
            &sixteen,
            &[0; 1024],
            127,
            Err((15, 128)),
        ),
        write("16-by-64-ends", &sixteen, &ends, 132, Ok(ends_bytes)),
        write(
            "16-by-1-zero",
            &bare(16, 1),
            &[0; 16],
            128,
            Ok(vec![0; 128]),
        ),
        write(
            "another-ranks-value-beyond",
            &bare(1, 2),
            &[0, 3, 4, 5],
            40,
            Ok(rank_bytes(&[(1, 3)])),
        ),
    ]
}

/// The program's own faults come first in both, whatever the lists and the memory.
fn program_faults() -> Vec<Result<Case, String>> {
    let faults: [(&str, Vec<u8>, (u8, usize)); 7] = [
        ("no-program", Vec::new(), (1, 0)),
        ("header-cut", vec![2, 2, 1, 1, 1], (1, 5)),
        ("program-left-over", join(&bare(2, 2), &[0]), (1, 6)),
        ("n-17", bare(17, 2), (2, 0)),
        ("a-0", bare(2, 0), (2, 1)),
        ("a-65", bare(2, 65), (2, 1)),
        ("kind-7", vec![2, 2, 1, 1, 1, 1, 0, 7, 0, 0], (3, 7)),
    ];
    let mut cases = Vec::new();
    for (what, program, refusal) in faults {
        let named = |how: &str| format!("{what}-{how}");
        cases.extend([
            write(&named("roomy"), &program, &[1, 2, 3, 4], 40, Err(refusal)),
            write(&named("short"), &program, &[], 0, Err(refusal)),
            read(&named("no-bytes"), &program, &[], 4, Err(refusal)),
            read(&named("bad-start"), &program, &[0; 15], 4, Err(refusal)),
            read(&named("short"), &program, &[0; 16], 0, Err(refusal)),
        ]);
    }
    cases
}

/// The reader alone: no bytes at all, and 19 before 15.
fn read_only() -> Vec<Result<Case, String>> {
    let two = bare(2, 2);
    let faults: [(&str, Vec<u8>, usize); 7] = [
        ("one-byte", vec![0], 1),
        ("half-a-start", vec![0; 8], 8),
        ("cut", vec![0; 15], 15),
        ("left-over", vec![0; 17], 16),
        ("bad-bit", join(&map_of([2]), &[0; 8]), 0),
        (
            "bad-bit-at-rank-2",
            join(&rank_bytes(&[(0, 1)]), &map_of([63])),
            10,
        ),
        ("listed-0", start(&[&[(0, 1), (1, 0)], &[]]), 10),
    ];
    let mut cases = vec![
        read("no-bytes", &two, &[], 4, Ok(vec![0; 4])),
        read("no-bytes-longer", &two, &[], 9, Ok(vec![0; 4])),
        read("no-bytes-list-short", &two, &[], 3, Err((15, 4))),
        read(
            "no-bytes-of-16-by-64",
            &bare(16, 64),
            &[],
            1024,
            Ok(vec![0; 1024]),
        ),
        read(
            "no-bytes-of-16-by-64-list-short",
            &bare(16, 64),
            &[],
            1023,
            Err((15, 1024)),
        ),
    ];
    for (what, start, place) in faults {
        let short = format!("{what}-list-short");
        cases.extend([
            read(what, &two, &start, 4, Err((19, place))),
            read(&short, &two, &start, 3, Err((19, place))),
            read(
                &format!("{what}-no-list"),
                &two,
                &start,
                0,
                Err((19, place)),
            ),
        ]);
    }
    cases
}

/// Generated cases that are not too long.
fn generated(seed: u64) -> Vec<Case> {
    let writes = (0..).map(|index| (index, start_write_case(seed, index)));
    let writes = writes.filter(|(_, case)| case.cells.len() <= LARGEST);
    let reads = (0..).map(|index| (index, start_read_case(seed, index)));
    let reads = reads.filter(|(_, case)| case.start.len().max(case.cell_entries) <= LARGEST);
    let mut cases = Vec::new();
    for (index, case) in writes.take(GENERATED as usize) {
        let name = format!("start-write-generated-{index}");
        cases.push(Case::StartWrite(StartWriteCase { name, ..case }));
    }
    for (index, case) in reads.take(GENERATED as usize) {
        let name = format!("start-read-generated-{index}");
        cases.push(Case::StartRead(StartReadCase { name, ..case }));
    }
    cases
}
