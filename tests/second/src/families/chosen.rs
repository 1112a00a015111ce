//! Cases chosen from the generator: small judged runs, and refusals at many places.

use super::former_ring::former_groups;
use super::Named;
use crate::check::{accept, accept_items, fill_bytes, Accepted, Answer};
use crate::corpus::{Case, CheckCase, Expected};
use crate::generator::edition::Edition;
use crate::generator::rng::Rng;
use crate::generator::{input_before_103, input_of_document_01, small_run, Input, Maker};
use crate::judge::judge;
use crate::limits::{number, Refusal, MAX_RANKS, MAX_SHORT_MAP_RANKS};
use crate::machine::Start;
use crate::order::Verdict;
use crate::program::{Kind, Program};
use crate::record::{read_record, record_bytes};
use crate::start::shortest_bytes;
use std::collections::{BTreeMap, BTreeSet};

/// How many cases each class of `judged.txt` has for each kind that its groups may have.
const PER_KIND: usize = 9;
/// How many cases each refusal number has.
const PER_NUMBER: usize = 12;
/// Chosen programs and records have at most so many bytes each.
const LARGEST: usize = 500;
/// So many generated inputs are looked through at most.
const PATIENCE: u64 = 400_000;

/// The class of a judged run: a ring, the record's own order, or another order.
#[derive(Debug, Clone, Copy, PartialEq, Eq, PartialOrd, Ord)]
enum Class {
    /// A ring.
    Ring,
    /// The groups in the order of their numbers.
    Own,
    /// The groups in another order.
    Other,
}

/// The class of an accepted run.
fn class(accepted: &Accepted) -> Class {
    match &accepted.verdict {
        Verdict::Ring(_) => Class::Ring,
        Verdict::Order(order) if order.is_sorted() => Class::Own,
        Verdict::Order(_) => Class::Other,
    }
}

/// The kinds of the groups that are listed: in a ring, document 01's, by which all these cases were
/// chosen.
fn kinds(accepted: &Accepted) -> BTreeSet<Kind> {
    let kind_of = |&group: &usize| accepted.grouping.groups[group].kind;
    former_groups(accepted).iter().map(kind_of).collect()
}

/// The file of judged runs.
pub fn judged_file(seed: u64) -> Result<Named, String> {
    let dated = Source {
        family: "judged",
        maker: small_run,
        edition: Edition::Before102,
        seed,
        per_kind: PER_KIND,
    };
    let cases = renewed_cases(&dated, "judged-later")?;
    let head = "# Small runs; each order or ring confirmed by the exhaustive judge.\n";
    Ok(Named::new("judged.txt", head, &cases))
}

/// Where judged runs come from.
pub struct Source {
    /// What the cases' names begin with.
    pub family: &'static str,
    /// How a run is made.
    pub maker: Maker,
    /// What it is made of.
    pub edition: Edition,
    /// The seed.
    pub seed: u64,
    /// How many cases each class has for each kind that its groups may have.
    pub per_kind: usize,
}

/// How many runs are still wanted of each class that list a group of each kind.
struct Wanted(BTreeMap<(Class, Kind), usize>);

impl Wanted {
    /// So many of each.
    fn of_each(per_kind: usize) -> Wanted {
        let mut wanted = BTreeMap::new();
        for class in [Class::Ring, Class::Own, Class::Other] {
            for kind in crate::program::KINDS {
                if !kind.is_pop() {
                    wanted.insert((class, kind), per_kind);
                }
            }
        }
        Wanted(wanted)
    }

    /// Whether a run is wanted.
    fn has(&self, accepted: &Accepted) -> bool {
        let class = class(accepted);
        let wanted = |&kind: &Kind| self.0.get(&(class, kind)).is_some_and(|&left| left > 0);
        kinds(accepted).iter().any(wanted)
    }

    /// Counts a run that was chosen.
    fn count(&mut self, accepted: &Accepted) {
        let class = class(accepted);
        for kind in kinds(accepted) {
            if let Some(left) = self.0.get_mut(&(class, kind)) {
                *left = left.saturating_sub(1);
            }
        }
    }
}

/// Judged runs: for each class and each kind of group some runs that list such a group.
pub fn judged_cases(source: &Source) -> Result<Vec<Case>, String> {
    chosen_cases(source, Wanted::of_each(source.per_kind))
}

/// The judged runs of a source from before #102, refused now or not, and after them runs made with
/// #102 in place of those that are refused.
pub fn renewed_cases(dated: &Source, family: &'static str) -> Result<Vec<Case>, String> {
    let mut cases = judged_cases(dated)?;
    let mut wanted = Wanted::of_each(dated.per_kind);
    for case in &cases {
        let Case::Check(case) = case else { continue };
        if let Ok(accepted) = accept(&case.program, &case.start, &case.record) {
            wanted.count(&accepted);
        }
    }
    let renewed = Source {
        family,
        edition: Edition::Before103,
        ..*dated
    };
    cases.extend(chosen_cases(&renewed, wanted)?);
    Ok(cases)
}

/// Runs of the source until none is wanted.
fn chosen_cases(source: &Source, mut wanted: Wanted) -> Result<Vec<Case>, String> {
    let seed = source.seed;
    let mut cases = Vec::new();
    for index in 0..PATIENCE {
        if wanted.0.values().all(|&left| left == 0) {
            break;
        }
        cases.extend(judged_case(source, index, &mut wanted)?.map(Case::Check));
    }
    if let Some((kind, left)) = wanted.0.iter().find(|(_, &left)| left > 0) {
        return Err(format!(
            "{left} judged runs of {kind:?} were not found under seed {seed}"
        ));
    }
    Ok(cases)
}

/// The small run of this number as a case, if it has a kind of group still wanted in its class. A
/// dated run is chosen by what it was before #102, and judged only if it is accepted still.
fn judged_case(
    source: &Source,
    index: u64,
    wanted: &mut Wanted,
) -> Result<Option<CheckCase>, String> {
    let seed = source.seed;
    let (program, start, items) = (source.maker)(&mut Rng::new(seed, index), source.edition);
    let (bytes, record) = (program.to_bytes(), record_bytes(&items));
    let readings = shortest_bytes(&start);
    let accepted = accept_items(program, start, items)
        .map_err(|refusal| format!("seed {seed}, index {index}: refused, {refusal:?}"))?;
    if !wanted.has(&accepted) || accepted.grouping.groups.len() < 2 {
        return Ok(None);
    }
    if let Ok(accepted) = accept(&bytes, &readings, &record) {
        judge(&accepted).map_err(|fault| format!("seed {seed}, index {index}: {fault}"))?;
    }
    wanted.count(&accepted);
    let name = format!("{}-{index}", source.family);
    let (groups, cells) = (
        accepted.grouping.groups.len(),
        accepted.run.last.ranks.len(),
    );
    let entries = (groups, cells * accepted.program.cells);
    Ok(Some(CheckCase::answered(
        name, bytes, readings, record, entries.0, entries.1,
    )))
}

/// The place of N in a program's header.
const RANKS_PLACE: usize = 0;
/// The place of the count byte in a program's header.
const COUNT_PLACE: usize = 5;

/// The program with an N that is refused today as 9 to 16 were before #105, and a count byte that
/// is refused as 255 was before #107.
fn dated(program: &[u8]) -> Vec<u8> {
    let mut dated = program.to_vec();
    let later_ranks = MAX_SHORT_MAP_RANKS + 1..=MAX_RANKS;
    match dated.get_mut(RANKS_PLACE) {
        Some(ranks) if later_ranks.contains(&usize::from(*ranks)) => *ranks = 255,
        _ => {}
    }
    if let Some(count @ &mut 255) = dated.get_mut(COUNT_PLACE) {
        *count = 254;
    }
    dated
}

/// The answer to an input without start bytes by document 01 alone, without #102, #105 and #107.
fn dated_answer(input: &Input) -> Answer {
    let accepted = Program::read(&dated(&input.program)).and_then(|program| {
        let items = read_record(&input.record, &program)?;
        let start = Start::zero(&program);
        accept_items(program.dated(), start, items)
    });
    let (mut order, mut cells) = (vec![0; input.order_bytes], vec![0; input.cell_bytes]);
    fill_bytes(accepted, &mut order, &mut cells)
}

/// The case of an input, if it is refused: with its number and place, and the number in its name.
fn refused(family: &str, index: u64, input: Input) -> Option<(CheckCase, Refusal)> {
    let case = CheckCase::of_input(input);
    let Expected::Refused(refusal) = case.answer else {
        return None;
    };
    let name = format!("{family}-{}-{index}", refusal.number);
    Some((CheckCase { name, ..case }, refusal))
}

/// Whether an input is short enough for a case.
fn is_short(input: &Input) -> bool {
    input.program.len() <= LARGEST && input.record.len() <= LARGEST
}

/// Refusals: for each number 1 to 15 some generated inputs at places as different as can be. They
/// are made, and chosen by their answers, by document 01 alone, so that they are the same inputs
/// still, and refused still. After them come inputs made with #102, for what it took away.
pub fn refused_file(seed: u64) -> Result<Named, String> {
    let mut cases = dated_refusals(seed)?;
    cases.extend(later_refusals(&cases, seed)?);
    let cases: Vec<Case> = cases
        .into_iter()
        .map(|(case, _)| Case::Check(case))
        .collect();
    let head = "# Generated inputs that are refused, each number at different places.\n";
    Ok(Named::new("refused.txt", head, &cases))
}

/// The refusals by document 01 alone, by the numbers and places that it alone gives them.
fn dated_refusals(seed: u64) -> Result<Vec<(CheckCase, Refusal)>, String> {
    let mut found: BTreeMap<u8, BTreeMap<usize, (CheckCase, Refusal)>> = BTreeMap::new();
    for index in 0..PATIENCE {
        if found.len() == 15 && found.values().all(|places| places.len() >= PER_NUMBER) {
            break;
        }
        let input = input_of_document_01(seed, index);
        if !is_short(&input) {
            continue;
        }
        let Answer::Refused(Refusal { number, place }) = dated_answer(&input) else {
            continue;
        };
        let places = found.entry(number).or_default();
        if places.len() < PER_NUMBER && !places.contains_key(&place) {
            places.extend(refused("refused", index, input).map(|case| (place, case)));
        }
    }
    let cases: Vec<_> = found
        .into_values()
        .flat_map(BTreeMap::into_values)
        .collect();
    if cases.len() < 15 * PER_NUMBER {
        let found = cases.len();
        return Err(format!(
            "only {found} refusals were found under seed {seed}"
        ));
    }
    Ok(cases)
}

/// Inputs made with #102 that bring each number of the check, but for #103's, to so many places
/// again.
fn later_refusals(
    dated: &[(CheckCase, Refusal)],
    seed: u64,
) -> Result<Vec<(CheckCase, Refusal)>, String> {
    let of_the_check = number::ALL
        .into_iter()
        .filter(|&number| ![number::SLIP, number::START].contains(&number));
    let mut found: BTreeMap<u8, BTreeSet<usize>> = of_the_check
        .map(|number| (number, BTreeSet::new()))
        .collect();
    for (_, Refusal { number, place }) in dated {
        found.entry(*number).or_default().insert(*place);
    }
    let mut cases = Vec::new();
    for index in 0..PATIENCE {
        if found.values().all(|places| places.len() >= PER_NUMBER) {
            return Ok(cases);
        }
        let input = input_before_103(seed, index);
        if !is_short(&input) {
            continue;
        }
        let Some((case, refusal)) = refused("refused-later", index, input) else {
            continue;
        };
        let places = found.entry(refusal.number).or_default();
        if places.len() < PER_NUMBER && places.insert(refusal.place) {
            cases.push((case, refusal));
        }
    }
    Err(format!(
        "not all refusals were found again under seed {seed}"
    ))
}
