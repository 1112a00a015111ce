//! Comparing a subject's slip writer, slip reader and listing with what is right: what they tell,
//! and every lent byte, with memory of many lengths. `start_extras` does so for its functions of
//! start bytes.

use crate::corpus::{to_hex, CheckCase, Expected, SlipCase};
use crate::harness::{inner, lent, Entry, GUARD};
use crate::limits::{number, Outcome, Refusal, MAX_RANKS};
use crate::listing::{write_listing, Said};
use crate::slip::{read_slip, write_slip};
use crate::start_extras::{compare_starts_of, start_read, start_written};
use std::collections::{BTreeMap, BTreeSet};
use std::fmt;

/// What is told of an order, and of a slip or start bytes written or read.
pub const DONE: u8 = 0;
/// What is told of a ring.
pub const RING: u8 = 255;

/// What one of the library's functions tells: the number it returns and the value beside it.
#[derive(Debug, Clone, Copy, PartialEq, Eq)]
pub struct Told {
    /// 0, 255 for a ring, or a refusal's number.
    pub number: u8,
    /// Bytes written, entries filled, or a refusal's place; for a listing the bytes of its text.
    pub value: usize,
}

impl From<Refusal> for Told {
    fn from(refusal: Refusal) -> Told {
        Told {
            number: refusal.number,
            value: refusal.place,
        }
    }
}

/// A slip writer or a listing: program, start, record, lent bytes.
pub type Writer<'a> = &'a dyn Fn(&[u8], &[u8], &[u8], &mut [u8]) -> Told;
/// A slip reader: N, slip, lent counts.
pub type Reader<'a> = &'a dyn Fn(usize, &[u8], &mut [u16]) -> Told;
/// A writer of start bytes: program, the bytes of a cell list, lent bytes. Or a reader of them:
/// program, start bytes, the bytes of a lent cell list.
pub type Starter<'a> = &'a dyn Fn(&[u8], &[u8], &mut [u8]) -> Told;

/// The functions beside the check, to be lent slices.
#[derive(Clone, Copy)]
pub struct Functions<'a> {
    /// The slip writer.
    pub write_slip: Writer<'a>,
    /// The slip reader.
    pub read_slip: Reader<'a>,
    /// The listing.
    pub list: Writer<'a>,
    /// The writer of start bytes.
    pub write_start: Starter<'a>,
    /// The reader of start bytes.
    pub read_start: Starter<'a>,
}

/// The second program's.
pub const SECOND: Functions<'static> = Functions {
    write_slip: &slip_written,
    read_slip: &slip_read,
    list: &listed,
    write_start: &start_written,
    read_start: &start_read,
};

/// What a function told, and the lent memory afterwards with the guards around it.
#[derive(Debug, Clone, PartialEq, Eq)]
pub struct Seen<E> {
    /// What it told.
    pub told: Told,
    /// The memory in its guards.
    pub memory: Vec<E>,
}

/// Lends so many fresh bytes to a writer, calls it on program, start and record, and notes what it
/// does.
pub type WriterObserver<'a> = Box<dyn Fn(&[u8], &[u8], &[u8], usize) -> Seen<u8> + 'a>;
/// Lends so many fresh counts to a reader, calls it on N and slip, and notes what it does.
pub type ReaderObserver<'a> = Box<dyn Fn(usize, &[u8], usize) -> Seen<u16> + 'a>;

/// Lends so many fresh bytes to a function of start bytes, calls it, and notes what it does.
pub type StartObserver<'a> = Box<dyn Fn(&[u8], &[u8], usize) -> Seen<u8> + 'a>;

/// A subject's functions beside the check, with the way memory is lent to them.
pub struct Extras<'a> {
    /// The slip writer.
    pub write_slip: WriterObserver<'a>,
    /// The slip reader.
    pub read_slip: ReaderObserver<'a>,
    /// The listing.
    pub list: WriterObserver<'a>,
    /// The writer of start bytes.
    pub write_start: StartObserver<'a>,
    /// The reader of start bytes.
    pub read_start: StartObserver<'a>,
}

/// Lends so many fresh entries between guards, has them filled, and notes what was done.
fn observed<E: Entry>(entries: usize, fill: impl FnOnce(&mut [E]) -> Told) -> Seen<E> {
    let mut memory = lent(entries);
    let told = fill(inner(&mut memory));
    Seen { told, memory }
}

impl<'a> Extras<'a> {
    /// Functions that are lent slices between guards.
    pub fn between_guards(functions: Functions<'a>) -> Extras<'a> {
        let writer = |subject: Writer<'a>| -> WriterObserver<'a> {
            Box::new(move |program, start, record, bytes| {
                observed(bytes, |memory| subject(program, start, record, memory))
            })
        };
        let starter = |subject: Starter<'a>| -> StartObserver<'a> {
            Box::new(move |program, given, bytes| {
                observed(bytes, |memory| subject(program, given, memory))
            })
        };
        Extras {
            write_slip: writer(functions.write_slip),
            read_slip: Box::new(move |ranks, slip, entries| {
                observed(entries, |counts| (functions.read_slip)(ranks, slip, counts))
            }),
            list: writer(functions.list),
            write_start: starter(functions.write_start),
            read_start: starter(functions.read_start),
        }
    }

    /// The second program's.
    pub fn second() -> Extras<'static> {
        Extras::between_guards(SECOND)
    }
}

/// What is told of a refusal, or of so many bytes written or entries filled.
pub(crate) fn told(outcome: Outcome<usize>) -> Told {
    outcome.map_or_else(Told::from, |value| Told {
        number: DONE,
        value,
    })
}

/// The second program's slip writer, told as the library tells it.
pub fn slip_written(program: &[u8], start: &[u8], record: &[u8], memory: &mut [u8]) -> Told {
    told(write_slip(program, start, record, memory))
}

/// The second program's slip reader, told as the library tells it.
pub fn slip_read(ranks: usize, slip: &[u8], counts: &mut [u16]) -> Told {
    told(read_slip(ranks, slip, counts).map(|()| ranks))
}

/// The second program's listing, told as the library tells it: with 15 the bytes needed, with any
/// other number the bytes written.
pub fn listed(program: &[u8], start: &[u8], record: &[u8], memory: &mut [u8]) -> Told {
    let listed = write_listing(program, start, record, memory);
    let number = match listed.said {
        Said::Order => DONE,
        Said::Ring => RING,
        Said::Refused(short) if short.number == number::MEMORY_SHORT => return short.into(),
        Said::Refused(refusal) => refusal.number,
    };
    Told {
        number,
        value: listed.written,
    }
}

/// A list this much longer than needed.
const MUCH_LONGER: usize = 300;
/// A length that is one short of the needed one if only its low 16 bits are looked at.
const PAST_16_BITS: usize = 65_535;

/// The lengths to lend where so much is needed: none, one, all around it, much more, and so much
/// more that 16 bits do not hold it.
pub(crate) fn lengths(needed: usize) -> BTreeSet<usize> {
    let around = needed.saturating_sub(2)..=needed + 2;
    around
        .chain([0, 1, needed + MUCH_LONGER, needed + PAST_16_BITS])
        .collect()
}

/// What is right where this is told and the first entries are filled.
pub(crate) fn right<E: Entry>(told: Told, filled: &[E], entries: usize) -> Seen<E> {
    let mut memory = lent(entries);
    inner(&mut memory)[..filled.len()].copy_from_slice(filled);
    Seen { told, memory }
}

/// What is right where this number is told if all entries needed fit, and else 15.
pub(crate) fn fitted<E: Entry>(number: u8, needed: &[E], entries: usize) -> Seen<E> {
    let value = needed.len();
    if entries < value {
        let number = number::MEMORY_SHORT;
        return right(Told { number, value }, &[], entries);
    }
    right(Told { number, value }, needed, entries)
}

/// One call of one function, for whoever reads of a disagreement.
pub(crate) struct Called<'a> {
    /// The function.
    pub function: &'static str,
    /// Its input as text, made if it is needed.
    pub input: &'a dyn Fn() -> String,
    /// The entries lent.
    pub entries: usize,
}

/// How the slip writer is called in what is printed.
pub const SLIP_WRITER: &str = "slip writer";
/// How the slip reader is called in what is printed.
const SLIP_READER: &str = "slip reader";
/// How the listing is called in what is printed.
pub const LISTING: &str = "listing";

impl Called<'_> {
    /// Counts what the subject told if it is right, and else says what differs. Memory is printed
    /// up to the last entry that either changed.
    pub fn agree<E: Entry>(
        &self,
        subject: Seen<E>,
        right: Seen<E>,
        show: fn(&[E]) -> String,
        tally: &mut Tally,
    ) -> Result<(), String> {
        if subject == right {
            tally.count(self.function, right.told.number);
            return Ok(());
        }
        let fresh = lent::<E>(self.entries);
        let changed = |seen: &Seen<E>| {
            let mut pairs = seen.memory.iter().zip(&fresh);
            pairs.rposition(|(now, before)| now != before)
        };
        let last = changed(&subject).max(changed(&right));
        let end = last.map_or(0, |at| at + 1).max(GUARD);
        let mut text = format!(
            "the {} differs\n{}\nlent entries {} (after {GUARD} guards; {} at the end, as they were, \
             are left out)",
            self.function,
            (self.input)(),
            self.entries,
            fresh.len() - end
        );
        for (name, Seen { told, memory }) in [("right", right), ("subject", subject)] {
            let Told { number, value } = told;
            let memory = show(&memory[..end]);
            text.push_str(&format!("\n{name}: {number}, value {value}\n  {memory}"));
        }
        Err(text)
    }
}

/// Counts as text.
fn decimals(counts: &[u16]) -> String {
    format!("{counts:?}")
}

/// Bytes that are mostly text.
fn escaped(bytes: &[u8]) -> String {
    bytes.escape_ascii().to_string()
}

/// Compares a subject's slip writer and listing with what a case holds, has its functions of start
/// bytes read the case's start and write its last cells, and its slip reader read the case's slip.
pub fn compare_extras(subject: &Extras, case: &CheckCase, tally: &mut Tally) -> Result<(), String> {
    compare_slip_writer(subject, case, tally)?;
    compare_listing(subject, case, tally)?;
    compare_starts_of(subject, case, tally)?;
    let Some(slip) = &case.slip else {
        return Ok(());
    };
    let ranks = case.program.first().map_or(0, |&byte| usize::from(byte));
    let own = SlipCase::answered(case.name.clone(), ranks, slip.clone(), ranks);
    if let Err(refusal) = own.answer {
        return Err(format!("an own slip is refused: {refusal:?}"));
    }
    compare_slip_reader(subject, &own, tally)
}

/// Program, start and record of a case, to be printed.
fn input_of(case: &CheckCase) -> String {
    let [program, start, record] = [&case.program, &case.start, &case.record].map(|b| to_hex(b));
    format!("program {program}\nstart {start}\nrecord {record}")
}

/// The refusal of a case whose program, start or record is refused.
fn refusal_of(case: &CheckCase) -> Option<Refusal> {
    match case.answer {
        Expected::Refused(refusal) if case.slip.is_none() => Some(refusal),
        _ => None,
    }
}

/// Compares a slip writer with a case, with memory of many lengths.
fn compare_slip_writer(
    subject: &Extras,
    case: &CheckCase,
    tally: &mut Tally,
) -> Result<(), String> {
    let needed = case.slip.as_ref().map_or(0, Vec::len);
    for entries in lengths(needed) {
        compare_slip(subject, case, entries, tally)?;
    }
    Ok(())
}

/// Compares a slip writer with the slip or refusal of a case, with so many bytes.
pub fn compare_slip(
    subject: &Extras,
    case: &CheckCase,
    entries: usize,
    tally: &mut Tally,
) -> Result<(), String> {
    let slip = case.slip.as_deref().unwrap_or_default();
    let right = match refusal_of(case) {
        Some(refusal) => right(refusal.into(), &[], entries),
        None => fitted(DONE, slip, entries),
    };
    let called = Called {
        function: SLIP_WRITER,
        input: &|| input_of(case),
        entries,
    };
    let seen = (subject.write_slip)(&case.program, &case.start, &case.record, entries);
    called.agree(seen, right, to_hex, tally)
}

/// Compares a listing with a case, with memory of many lengths.
fn compare_listing(subject: &Extras, case: &CheckCase, tally: &mut Tally) -> Result<(), String> {
    for entries in lengths(case.listing.len()) {
        compare_text(subject, case, entries, tally)?;
    }
    Ok(())
}

/// Compares a listing with the text of a case, with so many bytes.
pub fn compare_text(
    subject: &Extras,
    case: &CheckCase,
    entries: usize,
    tally: &mut Tally,
) -> Result<(), String> {
    let number = match refusal_of(case) {
        Some(refusal) => refusal.number,
        None if case.listing.starts_with("ring ") => RING,
        None => DONE,
    };
    let right = fitted(number, case.listing.as_bytes(), entries);
    let called = Called {
        function: LISTING,
        input: &|| input_of(case),
        entries,
    };
    let seen = (subject.list)(&case.program, &case.start, &case.record, entries);
    called.agree(seen, right, escaped, tally)
}

/// Whether the library can be asked: it takes N as one byte.
pub fn askable(case: &SlipCase) -> bool {
    u8::try_from(case.ranks).is_ok()
}

/// Compares a slip reader with a case, with the case's list and with lists of other lengths.
pub fn compare_slip_reader(
    subject: &Extras,
    case: &SlipCase,
    tally: &mut Tally,
) -> Result<(), String> {
    let mut lengths = lengths(case.ranks.min(MAX_RANKS));
    lengths.insert(case.counts_entries);
    for entries in lengths {
        compare_counts(subject, case, entries, tally)?;
    }
    Ok(())
}

/// Compares a slip reader with a case, with a list of so many entries.
fn compare_counts(
    subject: &Extras,
    case: &SlipCase,
    entries: usize,
    tally: &mut Tally,
) -> Result<(), String> {
    let right = match &case.answer {
        Ok(counts) => fitted(DONE, counts, entries),
        // The case does not hold the counts that a longer list gets.
        Err(short) if short.number == number::MEMORY_SHORT && entries >= short.place => {
            return Ok(());
        }
        Err(refusal) => right((*refusal).into(), &[], entries),
    };
    let called = Called {
        function: SLIP_READER,
        input: &|| format!("ranks {}\nslip {}", case.ranks, to_hex(&case.slip)),
        entries,
    };
    let seen = (subject.read_slip)(case.ranks, &case.slip, entries);
    called.agree(seen, right, decimals, tally)
}

/// Every N there is, those on both sides, and others that one byte holds.
const ALL_RANKS: [usize; 22] = [
    0, 1, 2, 3, 4, 5, 6, 7, 8, 9, 10, 11, 12, 13, 14, 15, 16, 17, 64, 128, 129, 255,
];

/// Compares a slip reader with the second program's on one slip, whatever N it is given.
pub fn compare_all_ranks(subject: &Extras, slip: &[u8], tally: &mut Tally) -> Result<(), String> {
    for ranks in ALL_RANKS {
        let case = SlipCase::answered(String::new(), ranks, slip.to_vec(), ranks);
        let lengths = BTreeSet::from([0, ranks.saturating_sub(1), ranks, ranks + 1]);
        for entries in lengths {
            compare_counts(subject, &case, entries, tally)?;
        }
    }
    Ok(())
}

/// How often each function told each number.
#[derive(Debug, Default, Clone, PartialEq, Eq)]
pub struct Tally {
    /// By function and number.
    pub told: BTreeMap<&'static str, BTreeMap<u8, usize>>,
}

impl Tally {
    /// Counts a number that a function told.
    fn count(&mut self, function: &'static str, number: u8) {
        let numbers = self.told.entry(function).or_default();
        *numbers.entry(number).or_default() += 1;
    }
}

impl fmt::Display for Tally {
    fn fmt(&self, out: &mut fmt::Formatter) -> fmt::Result {
        for (function, numbers) in &self.told {
            let calls: usize = numbers.values().sum();
            write!(out, "{function} {calls:8} calls, told")?;
            for (number, times) in numbers {
                write!(out, " {number}:{times}")?;
            }
            writeln!(out)?;
        }
        Ok(())
    }
}
