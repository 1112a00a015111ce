//! The table of verdicts on map and kind: said a second way, as text, and held against the second
//! program itself.

use second::check::check_bytes;
use second::extras::Extras;
use second::forms::hold::{hold, Readers};
use second::forms::table::Table;
use second::forms::{pairs, Form, Pair};
use second::harness::between_guards;

/// The verdict by the fields that an item names. Every item is some rank's; a command item takes a
/// transition, and a pop names a queue; loads, stores and pops read or write a cell, so they name a
/// place, and may give the value. A pop may name a remote rank. A transition's number may have a
/// high byte.
fn form_by_fields(Pair { map, kind }: Pair) -> Form {
    let pop = matches!(kind, 7 | 8);
    let access = pop || matches!(kind, 1 | 2);
    let fits = |bit: u8| {
        let named = map & (1 << bit) != 0;
        match bit {
            0 => named,
            1 => named != pop,
            2 => named == pop,
            3 | 4 => named == access,
            5 => access || !named,
            6 => pop || !named,
            _ => !pop || !named,
        }
    };
    match kind {
        1..=9 if (0..8).all(fits) => Form::Good,
        1..=9 => Form::WrongMap,
        _ => Form::UnknownKind,
    }
}

#[test]
fn the_verdicts_are_those_by_the_fields_of_an_item() {
    assert_eq!(pairs().count(), 65_536);
    for pair in pairs() {
        assert_eq!(pair.form(), form_by_fields(pair), "{pair}");
    }
}

#[test]
fn the_second_program_is_held_to_the_table() {
    let readers = Readers {
        check: &between_guards(&check_bytes),
        extras: &Extras::second(),
    };
    let shown = hold(&Table::of_the_papers(), &readers).unwrap_or_else(|fault| panic!("{fault}"));
    let verdicts = "good 26  unknown-kind 63232  wrong-map 2278\n";
    let functions = ["check      ", "listing    ", "slip writer"];
    let lines: String = functions.map(|name| format!("{name}  {verdicts}")).concat();
    assert_eq!(shown.to_string(), lines);
}

#[test]
fn the_table_has_one_text() {
    let table = Table::of_the_papers();
    let text = table.to_string();
    assert_eq!(text.lines().count(), 65_536);
    assert!(text.starts_with("kind 0 map 0 unknown-kind\nkind 0 map 1 unknown-kind\n"));
    assert!(
        text.contains("\nkind 1 map 26 wrong-map\nkind 1 map 27 good\nkind 1 map 28 wrong-map\n")
    );
    assert!(text.ends_with("\nkind 255 map 254 unknown-kind\nkind 255 map 255 unknown-kind\n"));
    assert_eq!(Table::parse(&text), Ok(table));
}

#[test]
fn damaged_tables_are_refused_at_their_line() {
    let text = Table::of_the_papers().to_string();
    let line = "kind 1 map 27 good\n";
    for other in [
        "",
        "\n",
        "# a remark\n",
        "kind 1 map 27\n",
        "kind 1 map 27 \n",
        "kind 1 map 27 goo\n",
        "kind 1 map 27 good \n",
        "kind 1 map 27 good good\n",
        "kind 1 map 27  good\n",
        " kind 1 map 27 good\n",
        "kind 1 map 027 good\n",
        "kind 01 map 27 good\n",
        "kind 1 map +27 good\n",
        "kind 1 map 283 good\n",
        "kind 257 map 27 good\n",
        "map 27 kind 1 good\n",
        "kind 1 map 26 good\n",
    ] {
        let fault = Table::parse(&text.replace(line, other)).expect_err(other);
        assert_eq!(fault, "line 284: `kind 1 map 27` with a verdict expected");
    }
    let twice = Table::parse(&text.replace(line, &line.repeat(2))).expect_err("a line twice");
    assert_eq!(twice, "line 285: `kind 1 map 28` with a verdict expected");
    let longer = Table::parse(&format!("{text}\n")).expect_err("a line more");
    assert_eq!(longer, "line 65537: left over");
    let begun = text.len() - "nd\n".len();
    for length in [0, 1, text.len() / 2, begun] {
        assert!(Table::parse(&text[..length]).is_err(), "{length} bytes");
    }
}
