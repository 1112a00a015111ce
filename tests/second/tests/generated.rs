//! The generator: repeatable, and rich enough that every number comes often and at many places.

mod common;

use common::takes_high;
use second::check::{check_bytes, Answer};
use second::corpus::{CheckCase, SlipCase};
use second::extras::{compare_all_ranks, compare_extras, compare_slip_reader, Extras, Tally};
use second::generator::edition::Edition;
use second::generator::rng::Rng;
use second::generator::slips::slip_input;
use second::generator::starts::{start_read_case, start_write_case};
use second::generator::widen::{widened, Run};
use second::generator::{input, middle_run, small_run, Input};
use second::harness::{between_guards, compare, Histogram};
use second::limits::{number, Refusal};
use second::program::Program;
use second::record::{fields, items_of, record_bytes};
use second::slip::read_slip;
use second::start::start_bytes;
use second::start_extras::{compare_start_reader, compare_start_writer};
use std::collections::BTreeMap;

#[test]
fn the_generator_is_repeatable() {
    for index in 0..200 {
        assert_eq!(input(3, index), input(3, index));
        assert_eq!(slip_input(3, index), slip_input(3, index));
    }
    assert_ne!(input(3, 0), input(4, 0));
}

#[test]
fn every_refusal_number_is_seen_at_many_places() {
    let mut histogram = Histogram::default();
    for index in 0..12_000 {
        match compare(&between_guards(&check_bytes), &input(5, index)) {
            Ok(answer) => histogram.count(answer),
            Err(disagreement) => panic!("seed 5, index {index}: {disagreement}"),
        }
        let slip = slip_input(5, index);
        let mut counts = vec![0; slip.counts_entries];
        histogram.count_slip(read_slip(slip.ranks, &slip.slip, &mut counts));
    }
    println!("{histogram}");
    for number in number::ALL {
        let places = histogram
            .refused
            .get(&number)
            .map_or(0, |places| places.len());
        assert!(
            histogram.refusals(number) >= 80,
            "number {number} is too rare"
        );
        assert!(places >= 5, "number {number} comes at {places} places only");
    }
    assert!(histogram.orders >= 2_000 && histogram.rings >= 1_300);
}

#[test]
fn order_and_ring_counts_stay_within_the_list() {
    for index in 0..2_000 {
        let input = input(6, index);
        let mut order = vec![0; input.order_bytes];
        let mut cells = vec![0; input.cell_bytes];
        match check_bytes(
            &input.program,
            &input.start,
            &input.record,
            &mut order,
            &mut cells,
        ) {
            Answer::Order(count) | Answer::Ring(count) => assert!(count <= order.len() / 2),
            Answer::Refused(Refusal { number, .. }) => {
                assert!(number != 16 && number::ALL.contains(&number));
            }
        }
    }
}

#[test]
fn every_number_is_told_by_the_functions_beside_the_check() {
    let (second, mut tally) = (Extras::second(), Tally::default());
    for index in 0..2_000 {
        let slip = slip_input(7, index);
        let case = CheckCase::of_input(input(7, index));
        let read = SlipCase::answered(String::new(), slip.ranks, slip.slip, slip.counts_entries);
        compare_extras(&second, &case, &mut tally)
            .and_then(|()| compare_slip_reader(&second, &read, &mut tally))
            .and_then(|()| compare_all_ranks(&second, &read.slip, &mut tally))
            .and_then(|()| compare_start_writer(&second, &start_write_case(7, index), &mut tally))
            .and_then(|()| compare_start_reader(&second, &start_read_case(7, index), &mut tally))
            .unwrap_or_else(|fault| panic!("seed 7, index {index}: {fault}"));
    }
    println!("{tally}");
    let numbers = |function| tally.told[function].keys().copied().collect::<Vec<u8>>();
    let refused = 1..=13;
    let writer: Vec<u8> = [0].into_iter().chain(refused).chain([15, 18, 19]).collect();
    let listing: Vec<u8> = writer.iter().copied().chain([255]).collect();
    assert_eq!(numbers("slip writer"), writer);
    assert_eq!(numbers("slip reader"), [0, 15, 16]);
    assert_eq!(numbers("listing"), listing);
    assert_eq!(numbers("start writer"), [0, 1, 2, 15]);
    assert_eq!(numbers("start reader"), [0, 1, 2, 3, 15, 19]);
    let often = |times: &usize| *times >= 30;
    assert!(tally
        .told
        .values()
        .flat_map(|numbers| numbers.values())
        .all(often));
}

/// What an input and its answer show of #107's rules for the count, if anything.
fn seen_of_the_count(program: &[u8], refusal: Refusal) -> Option<&'static str> {
    let long = program.get(5) == Some(&255);
    match (refusal.number, refusal.place) {
        (2, 5) => Some("count byte outside its range"),
        (2, 6) if long => Some("two-byte count outside its range"),
        (1, 6) if long => Some("two-byte count missing"),
        (1, 7) if long => Some("half of the two-byte count missing"),
        (1, 8) if long => Some("transitions missing after a long count"),
        (1, _) if long => Some("a long program's end"),
        (3, _) if long => Some("a long program's bad transition"),
        _ => None,
    }
}

/// What a refused record shows of #107's rules for an item's fields, if anything.
fn seen_of_the_item(program: &Program, record: &[u8], refusal: Refusal) -> Option<&'static str> {
    let Refusal { number, place } = refusal;
    let holds = |&at: &usize| (at..=at + 1 + fields(record[at])).contains(&place);
    let at = items_of(record).into_iter().find(holds)?;
    let (map, high_place) = (record[at], at + 1 + fields(record[at]));
    let size = program.transitions.len();
    if map & 128 == 0 {
        let low = map & 2 != 0 && (number, place) == (5, at + 3);
        return (low && size > 128).then_some("low byte alone too high of 129 to 255");
    }
    let bad_high = |&high: &u8| high == 0;
    match number {
        4 if place == high_place => Some("high byte missing"),
        5 if place == high_place && record[place] == 0 => Some("high byte 0"),
        5 if place == high_place && size > 256 => Some("high byte too high of more than 256"),
        5 if place == high_place && size > 128 => Some("high byte too high of 129 to 256"),
        5 if place == high_place => Some("high byte too high of at most 128"),
        5 if record.get(high_place).is_some_and(bad_high) => {
            Some("a field before a high byte of 0")
        }
        5 => Some("a field before a high byte"),
        6 if matches!(record[at + 1], 7 | 8) => Some("bit 7 of a pop"),
        6 if place == at => Some("bit 7 of a wrong map"),
        _ => None,
    }
}

/// What an input's answer shows of #107, if anything.
fn seen(input: &Input, answer: Answer) -> Option<String> {
    let Ok(program) = Program::read(&input.program) else {
        return match answer {
            Answer::Refused(refusal) => seen_of_the_count(&input.program, refusal).map(Into::into),
            _ => panic!("an answer for a program that cannot be read"),
        };
    };
    let places = items_of(&input.record);
    let is_high = |&at: &usize| input.record[at] & 128 != 0;
    match answer {
        Answer::Order(_) if places.iter().any(is_high) => Some("order".into()),
        Answer::Ring(_) if places.iter().any(is_high) => Some("ring".into()),
        Answer::Refused(refusal) if refusal.number <= 6 => {
            seen_of_the_item(&program, &input.record, refusal).map(Into::into)
        }
        Answer::Refused(Refusal { number, place }) if number <= 12 || number == 18 => {
            let item = places.get(place).filter(|at| is_high(at));
            item.map(|_| format!("refused {number} with a high byte"))
        }
        _ => None,
    }
}

#[test]
fn every_rule_of_107_is_seen() {
    let mut times: BTreeMap<String, usize> = BTreeMap::new();
    for index in 0..20_000 {
        let input = input(8, index);
        let answer = compare(&between_guards(&check_bytes), &input)
            .unwrap_or_else(|fault| panic!("seed 8, index {index}: {fault}"));
        if let Some(seen) = seen(&input, answer) {
            *times.entry(seen).or_default() += 1;
        }
    }
    println!("{times:#?}");
    let rare: Vec<_> = times.iter().filter(|(_, &times)| times < 4).collect();
    assert!(
        times.len() == 25 && rare.is_empty(),
        "{} seen, rare {rare:?}",
        times.len()
    );
}

#[test]
fn a_widened_run_has_the_same_answer() {
    let mut wide = 0;
    for index in 0..1_000 {
        let rng = &mut Rng::new(11, index);
        let run = if index % 2 == 0 {
            small_run(rng, Edition::Today)
        } else {
            middle_run(rng, Edition::Today)
        };
        let case = |(program, start, items): &Run| {
            let (program, record) = (program.to_bytes(), record_bytes(items));
            CheckCase::answered(String::new(), program, start_bytes(start), record, 40, 40)
        };
        let before = case(&run);
        let run = widened(rng, run);
        let after = case(&run);
        wide += usize::from(takes_high(&run.2));
        let (program, record) = (after.program.clone(), after.record.clone());
        let same = CheckCase {
            program,
            record,
            ..before
        };
        assert_eq!(after, same, "seed 11, index {index}");
    }
    println!("widened: 1000 runs, {wide} of them with transitions from 256 on");
    assert!(wide >= 400);
}

/// What an input and its answer show of #105, if anything.
fn seen_of_ranks(input: &Input, answer: Answer) -> Option<String> {
    let ranks = usize::from(*input.program.first()?);
    let (number, place) = match answer {
        Answer::Order(0) => return None,
        Answer::Order(_) if ranks > 8 => return Some(format!("order of {ranks} ranks")),
        Answer::Ring(_) if ranks > 8 => return Some(format!("ring of {ranks} ranks")),
        Answer::Refused(Refusal { number, place }) => (number, place),
        _ => return None,
    };
    match (number, place) {
        (2, 0) if ranks == 17 => Some("n of 17".into()),
        (2, 0) => Some("n outside its range".into()),
        (5, _) if ranks > 8 && place > 0 => {
            let other = usize::from(input.record[place]);
            (other == ranks + 1).then(|| "rank one above n of more than 8".into())
        }
        (5, _) if ranks == 8 && place > 0 => {
            (input.record[place] == 9).then(|| "rank 9 of 8".into())
        }
        _ if ranks > 8 => Some(format!("refused {number} of more than 8 ranks")),
        _ => None,
    }
}

#[test]
fn every_rule_of_105_is_seen() {
    let mut times: BTreeMap<String, usize> = BTreeMap::new();
    let (mut many, mut accepted_rows) = (0, 0);
    for index in 0..20_000 {
        let input = input(12, index);
        let answer = compare(&between_guards(&check_bytes), &input)
            .unwrap_or_else(|fault| panic!("seed 12, index {index}: {fault}"));
        if let Some(seen) = seen_of_ranks(&input, answer) {
            *times.entry(seen).or_default() += 1;
        }
        let is_many = input
            .program
            .first()
            .is_some_and(|ranks| (9..=16).contains(ranks));
        many += usize::from(is_many);
        let refused = matches!(answer, Answer::Refused(_));
        let bars = |&at: &usize| input.record[at + 1] == 9;
        accepted_rows +=
            usize::from(is_many && !refused && items_of(&input.record).iter().any(bars));
    }
    println!("{times:#?}\n{many} of 20000 with N from 9 to 16, {accepted_rows} accepted with rows");
    let rare: Vec<_> = times.iter().filter(|(_, &times)| times < 4).collect();
    assert!(rare.is_empty(), "rare {rare:?}");
    // an order and a ring of each N from 9 on, each number but 16, and the four above
    assert_eq!(times.len(), 8 + 8 + 17 + 4);
    assert!(many >= 3_000 && accepted_rows >= 300);
}

#[test]
fn slips_with_maps_of_two_bytes_are_seen() {
    let (mut read, mut refused) = (BTreeMap::<usize, usize>::new(), BTreeMap::new());
    for index in 0..6_000 {
        let slip = slip_input(13, index);
        let mut counts = vec![0; slip.counts_entries];
        match read_slip(slip.ranks, &slip.slip, &mut counts) {
            Ok(()) => *read.entry(slip.ranks).or_default() += 1,
            Err(refusal) if slip.ranks > 8 => {
                *refused
                    .entry((refusal.number, refusal.place.min(4)))
                    .or_default() += 1;
            }
            Err(_) => {}
        }
    }
    println!("read by N {read:?}, refused {refused:?}");
    assert!(read.keys().eq(&(1..=16).collect::<Vec<_>>()));
    assert!(read.values().all(|&times| times >= 50));
    for place in 0..=4 {
        let times: usize = refused.get(&(16, place)).copied().unwrap_or(0);
        assert!(times >= 20, "16 at {place}: {times}");
    }
}

#[test]
fn no_slip_is_read_both_with_one_byte_of_map_and_with_two() {
    let reads = |slip: &[u8], ranks| read_slip(ranks, slip, &mut [0; 16]).is_ok();
    for index in 0..6_000 {
        let slip = slip_input(14, index).slip;
        let [short, long] = [1..=8, 9..=16].map(|mut all| all.any(|ranks| reads(&slip, ranks)));
        assert!(!(short && long), "seed 14, index {index}");
        let odd = slip.len() % 2 == 1;
        assert!(!short || odd, "seed 14, index {index}");
        assert!(!long || !odd, "seed 14, index {index}");
    }
}
