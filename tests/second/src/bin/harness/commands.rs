//! What each command of the harness does.

use crate::subject::Tested;
use crate::{Done, Failure};
use second::bounded::judge_bounded;
use second::check::{accept, check_bytes, Answer};
use second::corpus::{to_hex, Case, CheckCase, Expected, SlipCase, StartReadCase, StartWriteCase};
use second::corpus_reader::{corpus_files, read_file};
use second::extras::{
    askable, compare_all_ranks, compare_extras, compare_slip_reader, Extras, Tally,
};
use second::families;
use second::forms::hold::{hold, Readers};
use second::forms::table::Table;
use second::generator::slips::{slip_input, SlipInput};
use second::generator::starts::{start_read_case, start_write_case};
use second::generator::{input, small_input, Input};
use second::harness::{between_guards, compare, compare_case, input_of, Histogram};
use second::judge::{judge, judge_order};
use second::judged::{judge_observed, Verdicts};
use second::listing::listing_of_directory;
use second::one_trace::{self, tried::Tried};
use second::order::Verdict;
use second::start_extras::{compare_start_reader, compare_start_writer};
use std::collections::BTreeSet;
use std::fmt::Write;
use std::fs;
use std::path::Path;

/// Records of at most so many groups go to the exhaustive judge.
const JUDGED_GROUPS: usize = 7;
/// Records of at most so many groups go to the bounded search.
const SEARCHED_GROUPS: usize = 20;
/// Places the bounded search may visit before it gives up.
const SEARCH_LIMIT: usize = 100;
/// For one of so many generated inputs the functions beside the check are compared, too.
const EXTRAS_EVERY: u64 = 3;

/// What a command counts: the answers of the check, and what the other functions told.
#[derive(Default)]
struct Counts {
    /// The answers.
    histogram: Histogram,
    /// What was told.
    tally: Tally,
}

/// Compares the subject with every case of the corpus, and the second program as well.
pub fn corpus(tested: &Tested, directory: &str) -> Done {
    let mut counts = Counts::default();
    let mut names = BTreeSet::new();
    let mut not_asked = 0;
    for file in corpus_files(Path::new(directory)).map_err(Failure::Input)? {
        for case in read_file(&file).map_err(Failure::Input)? {
            if !names.insert(case.name().to_string()) {
                let what = format!("{}: a second case named `{}`", file.display(), case.name());
                return Err(Failure::Input(what));
            }
            match &case {
                Case::Check(case) => corpus_check(tested, case, &mut counts)?,
                Case::Slip(slip) => {
                    both_readers(tested, slip, &mut counts).map_err(of_case(&case))?;
                    not_asked += usize::from(!askable(slip));
                }
                Case::StartWrite(write) => {
                    both_start_writers(tested, write, &mut counts).map_err(of_case(&case))?;
                }
                Case::StartRead(read) => {
                    both_start_readers(tested, read, &mut counts).map_err(of_case(&case))?;
                }
            }
        }
    }
    let Counts { histogram, tally } = counts;
    Ok(format!(
        "corpus: {} cases agree ({})\nslip cases for the second program only, N above 255: \
         {not_asked}\n{histogram}{tally}",
        names.len(),
        tested.name
    ))
}

/// One case of the whole check: subject and second program against what the case holds.
fn corpus_check(tested: &Tested, case: &CheckCase, counts: &mut Counts) -> Result<(), Failure> {
    let named = |fault: String| Failure::Disagreement(format!("case {}\n{fault}", case.name));
    let answer = compare_case(&tested.observe, case).map_err(|fault| named(fault.to_string()))?;
    compare_case(&between_guards(&check_bytes), case)
        .map_err(|fault| named(of_second(&fault.to_string())))?;
    both_extras(tested, case, counts).map_err(named)?;
    counts.histogram.count(answer);
    Ok(())
}

/// What is printed of a fault in a case, with the case's first line.
fn of_case(case: &Case) -> impl Fn(String) -> Failure {
    let text = case.to_text();
    let line = text.lines().next().unwrap_or_default().to_string();
    move |fault| Failure::Disagreement(format!("{line}\n{fault}"))
}

/// What is printed of a fault of the second program.
fn of_second(fault: &str) -> String {
    format!("the second program differs\n{fault}")
}

/// Compares slip writer and listing of both programs with a case.
fn both_extras(tested: &Tested, case: &CheckCase, counts: &mut Counts) -> Result<(), String> {
    compare_extras(&tested.extras, case, &mut counts.tally)?;
    compare_extras(&Extras::second(), case, &mut Tally::default())
        .map_err(|fault| of_second(&fault))
}

/// Compares the slip readers of both programs with a case, and counts its answer.
fn both_readers(tested: &Tested, case: &SlipCase, counts: &mut Counts) -> Result<(), String> {
    if askable(case) {
        compare_slip_reader(&tested.extras, case, &mut counts.tally)?;
    }
    compare_slip_reader(&Extras::second(), case, &mut Tally::default())
        .map_err(|fault| of_second(&fault))?;
    counts.histogram.count_slip(case.answer.clone().map(drop));
    Ok(())
}

/// Compares the writers of start bytes of both programs with a case, and counts its answer.
fn both_start_writers(
    tested: &Tested,
    case: &StartWriteCase,
    counts: &mut Counts,
) -> Result<(), String> {
    compare_start_writer(&tested.extras, case, &mut counts.tally)?;
    compare_start_writer(&Extras::second(), case, &mut Tally::default())
        .map_err(|fault| of_second(&fault))?;
    counts.histogram.count_start(case.answer.clone().map(drop));
    Ok(())
}

/// Compares the readers of start bytes of both programs with a case, and counts its answer.
fn both_start_readers(
    tested: &Tested,
    case: &StartReadCase,
    counts: &mut Counts,
) -> Result<(), String> {
    compare_start_reader(&tested.extras, case, &mut counts.tally)?;
    compare_start_reader(&Extras::second(), case, &mut Tally::default())
        .map_err(|fault| of_second(&fault))?;
    counts.histogram.count_start(case.answer.clone().map(drop));
    Ok(())
}

/// Compares the subject with the second program on generated inputs, and judges their verdicts.
pub fn generated(tested: &Tested, seed: u64, count: u64) -> Done {
    let mut counts = Counts::default();
    let (mut judged_orders, mut judged_rings) = (0, 0);
    for index in 0..count {
        let input = input(seed, index);
        let named =
            |fault: String| Failure::Disagreement(format!("seed {seed}, index {index}\n{fault}"));
        let answer = compare(&tested.observe, &input).map_err(|fault| named(fault.to_string()))?;
        counts.histogram.count(answer);
        if !matches!(answer, Answer::Refused(_)) {
            match searched(&input).map_err(|fault| named(format!("{fault}\n{input}")))? {
                Some(Verdict::Order(_)) => judged_orders += 1,
                Some(Verdict::Ring(_)) => judged_rings += 1,
                None => {}
            }
        }
        if index % EXTRAS_EVERY == 0 {
            generated_extras(tested, &input, &mut counts).map_err(named)?;
            generated_slip(tested, &slip_input(seed, index), &mut counts).map_err(named)?;
            both_start_writers(tested, &start_write_case(seed, index), &mut counts)
                .map_err(named)?;
            both_start_readers(tested, &start_read_case(seed, index), &mut counts)
                .map_err(named)?;
        }
    }
    let Counts { histogram, tally } = counts;
    let judged = format!("judged by search: {judged_orders} orders, {judged_rings} rings");
    Ok(format!(
        "generated: {count} inputs agree, seed {seed} ({})\n{judged}\n{histogram}{tally}",
        tested.name
    ))
}

/// Judges an accepted input: every order as a plain run, and records by search if not too long.
fn searched(input: &Input) -> Result<Option<Verdict>, String> {
    let accepted = accept(&input.program, &input.start, &input.record)
        .map_err(|refusal| format!("accepted and refused: {refusal:?}"))?;
    if accepted.grouping.groups.len() <= JUDGED_GROUPS {
        judge(&accepted)?;
        return Ok(Some(accepted.verdict));
    }
    if let Verdict::Order(order) = &accepted.verdict {
        judge_order(&accepted, order)?;
    }
    let short = accepted.grouping.groups.len() <= SEARCHED_GROUPS;
    let ended = short && judge_bounded(&accepted, SEARCH_LIMIT)?;
    Ok(ended.then_some(accepted.verdict))
}

/// The functions beside the check on a generated input.
fn generated_extras(tested: &Tested, input: &Input, counts: &mut Counts) -> Result<(), String> {
    both_extras(tested, &CheckCase::of_input(input.clone()), counts)
}

/// The slip reader on a generated slip, the subject's also for every other N.
fn generated_slip(tested: &Tested, input: &SlipInput, counts: &mut Counts) -> Result<(), String> {
    let (slip, entries) = (input.slip.clone(), input.counts_entries);
    let case = SlipCase::answered(String::new(), input.ranks, slip, entries);
    both_readers(tested, &case, counts)?;
    compare_all_ranks(&tested.extras, &case.slip, &mut counts.tally)
}

/// Judges the subject's own answers on small records by the exhaustive search.
pub fn judged(tested: &Tested, seed: u64, count: u64) -> Done {
    let mut verdicts = Verdicts::default();
    for index in 0..count {
        let input = small_input(seed, index);
        let observed = (tested.observe)(&input);
        let verdict = judge_observed(&input, &observed).map_err(|fault| {
            let found = format!("{fault}\n{input}\nsubject: {observed:?}");
            Failure::Disagreement(format!("small record: seed {seed}, index {index}\n{found}"))
        })?;
        verdicts.count(&verdict);
    }
    Ok(format!(
        "judged: {count} answers hold, seed {seed} ({})\n{verdicts}",
        tested.name
    ))
}

/// Lays the subject's answers on records of one trace side by side, and from starts that no access
/// of a record tells apart.
pub fn one_trace(tested: &Tested, seed: u64, count: u64) -> Done {
    let mut tried = Tried::default();
    for index in 0..count {
        one_trace::hold(&readers_of(tested), seed, index, &mut tried).map_err(|fault| {
            Failure::Disagreement(format!("one trace: seed {seed}, index {index}\n{fault}"))
        })?;
    }
    Ok(format!(
        "one-trace: {count} records hold, seed {seed} ({})\n{tried}",
        tested.name
    ))
}

/// The subject's functions that read a record.
fn readers_of(tested: &Tested) -> Readers<'_> {
    Readers {
        check: &tested.observe,
        extras: &tested.extras,
    }
}

/// Holds the subject's check, slip writer and listing to a table of verdicts.
pub fn forms(tested: &Tested, file: &str) -> Done {
    let table = Table::read(Path::new(file)).map_err(Failure::Input)?;
    let shown = hold(&table, &readers_of(tested)).map_err(Failure::Disagreement)?;
    Ok(format!("forms: all pairs agree ({})\n{shown}", tested.name))
}

/// Writes the papers' table of verdicts.
pub fn write_forms(file: &str) -> Done {
    let text = Table::of_the_papers().to_string();
    written(Path::new(file), &text)?;
    Ok(format!("{file}: {} bytes\n", text.len()))
}

/// Writes a file.
fn written(path: &Path, text: &str) -> Result<(), Failure> {
    fs::write(path, text).map_err(|error| Failure::Input(format!("{}: {error}", path.display())))
}

/// Makes the corpus files.
pub fn write_corpus(directory: &str, seed: u64) -> Done {
    let mut report = String::new();
    for file in families::files(seed).map_err(Failure::Disagreement)? {
        written(&Path::new(directory).join(file.name), &file.text)?;
        let _ = writeln!(report, "{}: {} bytes", file.name, file.text.len());
    }
    Ok(report)
}

/// Prints the second program's answer and listing for the cases of a file, or for one of them.
pub fn show(file: &str, name: Option<&str>) -> Done {
    let mut report = String::new();
    for case in read_file(Path::new(file)).map_err(Failure::Input)? {
        if name.is_none_or(|name| name == case.name()) {
            report.push_str(&shown(&case));
        }
    }
    match name {
        Some(name) if report.is_empty() => {
            Err(Failure::Input(format!("{file}: no case named `{name}`")))
        }
        _ => Ok(report),
    }
}

/// One case for a person: its answer, its listing, and whether the file says the same.
fn shown(case: &Case) -> String {
    let (again, lines) = match case {
        Case::Check(case) => {
            let again = CheckCase {
                name: case.name.clone(),
                ..CheckCase::of_input(input_of(case, 0))
            };
            let mut lines = start_line(&case.start);
            let _ = writeln!(lines, "{}", answer_line(&again));
            lines.push_str(&again.listing);
            (Case::Check(again), lines)
        }
        Case::Slip(case) => {
            let (name, slip) = (case.name.clone(), case.slip.clone());
            let again = SlipCase::answered(name, case.ranks, slip, case.counts_entries);
            let lines = format!("answer {:?}\n", again.answer);
            (Case::Slip(again), lines)
        }
        Case::StartWrite(case) => {
            let (name, program, cells) = (&case.name, &case.program, &case.cells);
            let again = StartWriteCase::answered(
                name.clone(),
                program.clone(),
                cells.clone(),
                case.start_bytes,
            );
            let lines = format!("cells {cells:?}\nanswer {:?}\n", again.answer);
            (Case::StartWrite(again), lines)
        }
        Case::StartRead(case) => {
            let (name, program, start) = (&case.name, &case.program, &case.start);
            let again = StartReadCase::answered(
                name.clone(),
                program.clone(),
                start.clone(),
                case.cell_entries,
            );
            let lines = format!("{}answer {:?}\n", start_line(start), again.answer);
            (Case::StartRead(again), lines)
        }
    };
    let same = if again == *case {
        "as the file says"
    } else {
        "NOT as the file says"
    };
    format!("{}: {same}\n{lines}", case.name())
}

/// The start bytes of a case in one line, if there are any.
fn start_line(start: &[u8]) -> String {
    if start.is_empty() {
        return String::new();
    }
    format!("start {}\n", to_hex(start))
}

/// The answer of a check case in one line.
fn answer_line(case: &CheckCase) -> String {
    match &case.answer {
        Expected::Order(groups) => format!("answer order {groups:?} cells {:?}", case.cells),
        Expected::Ring(groups) => format!("answer ring {groups:?} cells {:?}", case.cells),
        Expected::Refused(refusal) => {
            format!("answer refused {} at {}", refusal.number, refusal.place)
        }
    }
}

/// The listing program on a directory's `run.prg`, `run.sta` and `run.rec`; a file not opened is
/// empty.
pub fn listing(directory: &str) -> Done {
    let directory = Path::new(directory);
    if !directory.is_dir() {
        return Err(Failure::Input(format!(
            "{}: no directory",
            directory.display()
        )));
    }
    Ok(listing_of_directory(directory))
}
