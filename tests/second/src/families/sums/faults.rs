//! Several faults side by side: in one item 12, 7, 18, 8, 9, 11 in this order; in several the first
//! item's; and all faults of the bytes before, and of the ends and lists after.

use super::build::{
    assign_of, assume_of, constant, machine, passing, passing_difference, passing_product,
    passing_sum, store_of,
};
use super::{accepted, own_order, refused, refused_bytes, without_value};
use crate::expression::Expression;
use crate::families::parts::{
    assume, at, bar, command, giving, load, popa, popb, read, store, with_operand, write,
};
use crate::families::row::Row;
use crate::program::{Kind, Program, Transition};
use crate::record::{record_bytes, Item};

/// All rows of faults.
pub fn rows() -> Vec<Row> {
    let mut rows = before_8();
    rows.extend(before_11());
    rows.extend(after_7());
    rows.extend(after_12());
    rows.extend(earlier_and_later_items());
    rows.extend(ends_and_lists());
    rows.extend(bytes());
    rows.extend(never_taken());
    rows.extend(high_transitions());
    rows
}

/// A store of rank 1 in cell 0, with transition 0.
fn stored() -> Item {
    at(command(Kind::Store, 1, 0), 0)
}

/// 18 before 8: one expression outside its range and another without a value, in each order; and
/// all four without one. The values are outside by one.
fn before_8() -> Vec<Row> {
    let mut rows = Vec::new();
    for transfer in [read(0, 2, 1), write(0, 2, 1)] {
        let word = transfer.kind.word();
        let item = command(transfer.kind, 1, 0);
        for (outside, number) in [2, 3, 2, 1].into_iter().enumerate() {
            for without in (0..4).filter(|&without| without != outside) {
                let what = format!("{word}-e{}-8-e{}", outside + 1, without + 1);
                let both = with_operand(transfer.clone(), outside, constant(number));
                let both = with_operand(both, without, passing_sum());
                rows.push(without_value(&what, &machine(2, &[both]), &[item], 0));
            }
        }
        let mut all = transfer;
        all.expressions.fill(passing_product());
        let what = format!("{word}-all-four");
        rows.push(without_value(&what, &machine(2, &[all]), &[item], 0));
    }
    for (word, value) in passing() {
        let program = machine(1, &[with_operand(store(2, 0), 1, value)]);
        let what = format!("store-e1-8-e2-{word}");
        rows.push(without_value(&what, &program, &[stored()], 0));
    }
    rows
}

/// 18 before 11: the item has another place or value than any that could be meant.
fn before_11() -> Vec<Row> {
    let stores = machine(2, &[store_of(passing_sum())]);
    let loads = machine(2, &[with_operand(load(0), 0, passing_difference())]);
    let loaded = |cell| at(command(Kind::Load, 1, 0), cell);
    let elsewhere = |item| Item {
        place: popa(1, (2, 1)).place,
        ..item
    };
    let of = |what: &str, program, item| {
        let what = format!("{what}-before-11");
        without_value(&what, program, &[item], 0)
    };
    vec![
        of("store-value", &stores, giving(stored(), 9)),
        of("store-cell", &stores, at(stored(), 1)),
        of("store-rank", &stores, elsewhere(stored())),
        of("load-cell", &loads, loaded(1)),
        of("load-value", &loads, giving(loaded(0), 9)),
        of("load-rank", &loads, elsewhere(loaded(0))),
    ]
}

/// 7 before 18: the transition leaves another state, or is of another kind.
fn after_7() -> Vec<Row> {
    let from_1 = |transition| Transition {
        from: 1,
        ..transition
    };
    let away = Transition {
        to: 1,
        ..assign_of(constant(1))
    };
    let other_state = machine(1, &[from_1(store_of(passing_sum()))]);
    let passing_load = with_operand(load(0), 0, passing_difference());
    let other_kind = machine(1, &[passing_load]);
    let assigns = machine(1, &[assign_of(passing_product())]);
    let left = machine(1, &[away, assume_of(passing_sum())]);
    let passing_write = with_operand(write(0, 1, 1), 1, passing_sum());
    let writes = machine(1, &[passing_write]);
    vec![
        refused("other-state", &other_state, &[stored()], 7, 0),
        refused("other-kind", &other_kind, &[stored()], 7, 0),
        refused(
            "assign-said-assume",
            &assigns,
            &[command(Kind::Assume, 1, 0)],
            7,
            0,
        ),
        refused(
            "assign-said-bar",
            &assigns,
            &[command(Kind::Bar, 1, 0)],
            7,
            0,
        ),
        refused(
            "write-said-read",
            &writes,
            &[command(Kind::Read, 1, 0)],
            7,
            0,
        ),
        refused(
            "state-left",
            &left,
            &[command(Kind::Assign, 1, 0), command(Kind::Assume, 1, 1)],
            7,
            1,
        ),
    ]
}

/// 12 before 18: the item stands in an open row. In a row of one rank it does not.
fn after_12() -> Vec<Row> {
    let transitions = [store_of(passing_sum()), bar(), assume_of(passing_product())];
    let program = machine(2, &transitions);
    let bar_of = |rank| command(Kind::Bar, rank, 1);
    let assumed = |rank| command(Kind::Assume, rank, 2);
    let row = |what: &str, items: &[Item], place| refused(what, &program, items, 12, place);
    let alone = machine(1, &transitions);
    vec![
        row("store-in-row", &[bar_of(1), stored(), bar_of(2)], 1),
        row("assume-of-2-in-row", &[bar_of(1), assumed(2)], 1),
        row("bar-2-first", &[bar_of(2), stored()], 0),
        without_value(
            "after-row",
            &program,
            &[bar_of(1), bar_of(2), assumed(2)],
            2,
        ),
        without_value("before-row", &program, &[stored(), bar_of(1), bar_of(2)], 0),
        without_value("after-row-of-1", &alone, &[bar_of(1), stored()], 1),
    ]
}

/// The first item that is refused decides, whatever the numbers.
fn earlier_and_later_items() -> Vec<Row> {
    let transitions = [
        store_of(passing_difference()),
        store(0, 5),
        assume(0),
        write(0, 1, 9),
        load(1),
    ];
    let program = machine(1, &transitions);
    let fine = at(command(Kind::Store, 1, 1), 0);
    let other_value = giving(fine, 6);
    let (assumed, written) = (command(Kind::Assume, 1, 2), command(Kind::Write, 1, 3));
    let said_load = at(command(Kind::Load, 1, 1), 1);
    let pop = popa(1, (1, 0));
    let later = [
        ("7", said_load),
        ("8", written),
        ("9", assumed),
        ("10", pop),
        ("11", other_value),
    ];
    let mut rows = Vec::new();
    for (number, item) in later {
        let items = [fine, stored(), item];
        rows.push(without_value(
            &format!("then-{number}"),
            &program,
            &items,
            1,
        ));
    }
    for (number, item) in [
        (7, said_load),
        (8, written),
        (9, assumed),
        (10, pop),
        (11, other_value),
    ] {
        let items = [fine, item, stored()];
        rows.push(refused("then-18", &program, &items, number, 1));
    }
    let twice = [fine, fine, stored(), stored()];
    rows.push(without_value("twice", &program, &twice, 2));
    rows
}

/// 18 before 12 and 13 at the end, and before 14 and 15.
fn ends_and_lists() -> Vec<Row> {
    let program = machine(2, &[store_of(passing_sum()), write(0, 2, 1), bar()]);
    let written = command(Kind::Write, 1, 1);
    let (fetched, delivered) = (popa(1, (1, 0)), popb(1, (2, 1)));
    let row_open = [stored(), command(Kind::Bar, 1, 2)];
    let done = [written, fetched, delivered, stored()];
    let last = |what: &str, items: &[Item]| {
        let place = items.len() - 1;
        without_value(what, &program, items, place)
    };
    vec![
        last("request-left", &[written, stored()]),
        last("delivery-left", &[written, fetched, stored()]),
        without_value("row-left-open", &program, &row_open, 0),
        last("no-lists", &done).with_lists(0, 0),
        last("no-order-list", &done).with_lists(0, 4),
        last("no-cell-list", &done).with_lists(2, 0),
    ]
}

/// Faults of program and record come before, wherever they stand.
fn bytes() -> Vec<Row> {
    let program = machine(1, &[store_of(passing_sum())]).to_bytes();
    let record = record_bytes(&[stored(), stored()]);
    let with = |bytes: &[u8], at: usize, byte: u8| {
        let mut changed = bytes.to_vec();
        changed[at] = byte;
        changed
    };
    let more = |bytes: &[u8]| [bytes, &[0]].concat();
    let of = |what: &str, program: &[u8], record: &[u8], number, place| {
        refused_bytes(what, [program.to_vec(), record.to_vec()], number, place)
    };
    // the header has 6 bytes, the transition 4, e1 3, and e2 is a token and two constants of 3
    let (length, second) = (program.len(), 14);
    // the count has 2 bytes, each item 7: map, kind, rank, transition, the place's rank and cell
    let item = 2 + 7;
    vec![
        of("byte-left", &more(&program), &record, 1, length),
        of(
            "constant-cut",
            &program[..length - 1],
            &record,
            1,
            length - 1,
        ),
        of(
            "register-1-of-1",
            &with(&program, second, 1),
            &record,
            2,
            second + 1,
        ),
        of(
            "unknown-token",
            &with(&program, second, 0x15),
            &record,
            3,
            second,
        ),
        of("record-byte-left", &program, &more(&record), 4, 16),
        of("record-cut", &program, &record[..15], 4, 15),
        of(
            "later-rank-2",
            &program,
            &with(&record, item + 2, 2),
            5,
            item + 2,
        ),
        of(
            "later-transition-1",
            &program,
            &with(&record, item + 3, 1),
            5,
            item + 3,
        ),
        of("later-map", &program, &with(&record, item, 3), 6, item),
        of(
            "later-kind",
            &program,
            &with(&record, item + 1, 10),
            6,
            item + 1,
        ),
    ]
}

/// A transition of this kind with no expression that has a value.
fn hopeless(mut transition: Transition, value: &Expression) -> Transition {
    transition.expressions.fill(value.clone());
    transition
}

/// The commands without any value, from this state.
fn all_hopeless(from: usize) -> Vec<Transition> {
    let mut all = Vec::new();
    for (_, value) in passing() {
        let commands = [
            load(0),
            store(0, 0),
            assume(1),
            read(0, 1, 0),
            write(0, 1, 0),
        ];
        let commands = commands.into_iter().chain([assign_of(constant(0))]);
        all.extend(commands.map(|command| Transition {
            from,
            ..hopeless(command, &value)
        }));
    }
    all
}

/// Transitions that are not taken may hold what has no value: the program is readable, and the
/// record is accepted.
fn never_taken() -> Vec<Row> {
    let own = [store(0, 5), bar()];
    let program = |from| -> Program { machine(2, &[&own[..], &all_hopeless(from)].concat()) };
    let row = [command(Kind::Bar, 1, 1), command(Kind::Bar, 2, 1)];
    let items = [&[stored()], &row[..], &[stored()]].concat();
    let cells = [((1, 0), 5)];
    let none = machine(1, &all_hopeless(0));
    vec![
        accepted("not-taken", &program(0), &items, own_order(3), &cells),
        accepted("not-reached", &program(1), &items, own_order(3), &cells),
        accepted("nothing-taken", &none, &[], own_order(0), &[])
            .with_slip(vec![0])
            .with_listing("order 0\n".into()),
    ]
}

/// Transitions 0 and 256 of 257, one of which has no value: the high byte decides.
fn high_transitions() -> Vec<Row> {
    let with = |low, high| {
        let mut transitions = vec![bar(); 257];
        (transitions[0], transitions[256]) = (store_of(low), store_of(high));
        machine(2, &transitions)
    };
    let high = at(command(Kind::Store, 1, 256), 0);
    let low_passes = with(passing_sum(), constant(5));
    let high_passes = with(constant(5), passing_sum());
    vec![
        accepted(
            "low-not-taken",
            &low_passes,
            &[high],
            own_order(1),
            &[((1, 0), 5)],
        ),
        without_value("high-taken", &high_passes, &[stored(), high], 1),
    ]
}
