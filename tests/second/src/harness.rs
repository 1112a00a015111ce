//! The harness: compares any subject with the second program, lent bytes and all.

use crate::bytes::fill_words;
use crate::check::{check_bytes, Answer};
use crate::corpus::{to_hex, CheckCase, Expected};
use crate::generator::Input;
use crate::limits::{number, Refusal};
use std::collections::BTreeMap;
use std::fmt;

/// A whole check: program, start, record, order bytes, cell bytes; two bytes an entry, big-endian.
pub type Subject<'a> = &'a dyn Fn(&[u8], &[u8], &[u8], &mut [u8], &mut [u8]) -> Answer;

/// Lends fresh lists to some check, calls it on an input, and notes what it does.
pub type Observer<'a> = &'a dyn Fn(&Input) -> Observed;

/// So many entries before and after each lent list belong to nobody and must stay; an entry is a
/// byte, and in a list of counts a 16-bit number.
pub const GUARD: usize = 16;
/// Fresh entries are the same again after so many.
const PERIOD: usize = 61;

/// An entry of a lent list.
pub trait Entry: Copy + Eq {
    /// What stands at a place of a fresh list, the place taken below the period.
    fn fresh(place: usize) -> Self;
}

impl Entry for u8 {
    fn fresh(place: usize) -> u8 {
        0xC0 | place as u8
    }
}

impl Entry for u16 {
    fn fresh(place: usize) -> u16 {
        0xC080 + 0x0101 * place as u16
    }
}

/// What a check answered, and both lists afterwards with the guards around them.
#[derive(Clone, PartialEq, Eq)]
pub struct Observed {
    /// The answer.
    pub answer: Answer,
    /// The order list in its guards.
    pub order: Vec<u8>,
    /// The cell list in its guards.
    pub cells: Vec<u8>,
}

/// A disagreement between what is right and what a subject did.
#[derive(Debug)]
pub struct Disagreement {
    /// The input.
    pub input: Input,
    /// What is right.
    pub right: Observed,
    /// What the subject did.
    pub subject: Observed,
}

impl fmt::Debug for Observed {
    fn fmt(&self, out: &mut fmt::Formatter) -> fmt::Result {
        writeln!(out, "{:?}", self.answer)?;
        writeln!(out, "  order list {}", to_hex(&self.order))?;
        write!(out, "  cell list  {}", to_hex(&self.cells))
    }
}

impl fmt::Display for Input {
    fn fmt(&self, out: &mut fmt::Formatter) -> fmt::Result {
        writeln!(out, "program {}", to_hex(&self.program))?;
        writeln!(out, "start {}", to_hex(&self.start))?;
        writeln!(out, "record {}", to_hex(&self.record))?;
        writeln!(out, "order bytes {}", self.order_bytes)?;
        write!(out, "cell bytes {}", self.cell_bytes)
    }
}

impl fmt::Display for Disagreement {
    fn fmt(&self, out: &mut fmt::Formatter) -> fmt::Result {
        writeln!(out, "{}", self.input)?;
        writeln!(
            out,
            "(both lists below have {GUARD} guard bytes before and after)"
        )?;
        writeln!(out, "right: {:?}", self.right)?;
        write!(out, "subject: {:?}", self.subject)
    }
}

/// A list of so many entries in its guards, all filled with ones that change from place to place.
pub fn lent<E: Entry>(entries: usize) -> Vec<E> {
    let length = entries + 2 * GUARD;
    let period: Vec<E> = (0..PERIOD).map(E::fresh).collect();
    let mut list = period.repeat(length.div_ceil(PERIOD));
    list.truncate(length);
    list
}

/// The part of a guarded list that is lent.
pub(crate) fn inner<E>(list: &mut [E]) -> &mut [E] {
    let end = list.len() - GUARD;
    &mut list[GUARD..end]
}

/// The observer that lends a subject its lists between guard bytes.
pub fn between_guards<'a>(subject: Subject<'a>) -> impl Fn(&Input) -> Observed + 'a {
    move |input| observe(subject, input)
}

/// Lends fresh lists to a subject and notes what it does.
fn observe(subject: Subject, input: &Input) -> Observed {
    let mut order = lent(input.order_bytes);
    let mut cells = lent(input.cell_bytes);
    let answer = subject(
        &input.program,
        &input.start,
        &input.record,
        inner(&mut order),
        inner(&mut cells),
    );
    Observed {
        answer,
        order,
        cells,
    }
}

/// Compares a subject with the second program on one input.
pub fn compare(subject: Observer, input: &Input) -> Result<Answer, Box<Disagreement>> {
    let right = observe(&check_bytes, input);
    agree(subject, input, right)
}

/// Compares a subject with what is right.
fn agree(subject: Observer, input: &Input, right: Observed) -> Result<Answer, Box<Disagreement>> {
    let subject = subject(input);
    if subject == right {
        return Ok(right.answer);
    }
    Err(Box::new(Disagreement {
        input: input.clone(),
        right,
        subject,
    }))
}

/// Compares a subject with the answer a corpus case holds, with even and with odd list lengths.
pub fn compare_case(subject: Observer, case: &CheckCase) -> Result<Answer, Box<Disagreement>> {
    compare_odd(subject, case, 1)?;
    compare_odd(subject, case, 0)
}

/// Compares a subject with a case, with so many odd bytes at the end of each list.
pub fn compare_odd(
    subject: Observer,
    case: &CheckCase,
    odd: usize,
) -> Result<Answer, Box<Disagreement>> {
    agree(subject, &input_of(case, odd), observed_of(case, odd))
}

/// The input of a corpus case, with so many odd bytes at the end of each list.
pub fn input_of(case: &CheckCase, odd: usize) -> Input {
    Input {
        program: case.program.clone(),
        start: case.start.clone(),
        record: case.record.clone(),
        order_bytes: 2 * case.order_entries + odd,
        cell_bytes: 2 * case.cell_entries + odd,
    }
}

/// What a right subject does on a corpus case.
fn observed_of(case: &CheckCase, odd: usize) -> Observed {
    let mut order = lent(2 * case.order_entries + odd);
    let mut cells = lent(2 * case.cell_entries + odd);
    let answer = match &case.answer {
        Expected::Order(groups) => {
            fill_words(inner(&mut order), groups);
            Answer::Order(groups.len())
        }
        Expected::Ring(groups) => {
            fill_words(inner(&mut order), groups);
            Answer::Ring(groups.len())
        }
        Expected::Refused(refusal) => Answer::Refused(*refusal),
    };
    fill_words(inner(&mut cells), &case.cells);
    Observed {
        answer,
        order,
        cells,
    }
}

/// How often each kind of answer came.
#[derive(Debug, Default, Clone, PartialEq, Eq)]
pub struct Histogram {
    /// Orders with at least one group.
    pub orders: usize,
    /// Orders of no groups.
    pub empty_orders: usize,
    /// Rings.
    pub rings: usize,
    /// Slips read.
    pub slips: usize,
    /// Start bytes written or read.
    pub starts: usize,
    /// Refusals by number, and by place under each number.
    pub refused: BTreeMap<u8, BTreeMap<usize, usize>>,
}

impl Histogram {
    /// Counts an answer of the whole check.
    pub fn count(&mut self, answer: Answer) {
        match answer {
            Answer::Order(0) => self.empty_orders += 1,
            Answer::Order(_) => self.orders += 1,
            Answer::Ring(_) => self.rings += 1,
            Answer::Refused(refusal) => self.count_refusal(refusal),
        }
    }

    /// Counts an answer of the slip reader.
    pub fn count_slip(&mut self, answer: Result<(), Refusal>) {
        match answer {
            Ok(()) => self.slips += 1,
            Err(refusal) => self.count_refusal(refusal),
        }
    }

    /// Counts an answer of the writer or the reader of start bytes.
    pub fn count_start(&mut self, answer: Result<(), Refusal>) {
        match answer {
            Ok(()) => self.starts += 1,
            Err(refusal) => self.count_refusal(refusal),
        }
    }

    /// Counts a refusal.
    fn count_refusal(&mut self, refusal: Refusal) {
        let places = self.refused.entry(refusal.number).or_default();
        *places.entry(refusal.place).or_default() += 1;
    }

    /// How often a number came.
    pub fn refusals(&self, number: u8) -> usize {
        self.refused
            .get(&number)
            .map_or(0, |places| places.values().sum())
    }
}

impl fmt::Display for Histogram {
    fn fmt(&self, out: &mut fmt::Formatter) -> fmt::Result {
        writeln!(out, "orders      {:8}", self.orders)?;
        writeln!(out, "order of 0  {:8}", self.empty_orders)?;
        writeln!(out, "rings       {:8}", self.rings)?;
        writeln!(out, "slips read  {:8}", self.slips)?;
        writeln!(out, "starts      {:8}", self.starts)?;
        for number in number::ALL {
            let places = self.refused.get(&number).map_or(0, BTreeMap::len);
            let times = self.refusals(number);
            writeln!(out, "refused {number:2}  {times:8}  at {places} places")?;
        }
        Ok(())
    }
}
