//! The harness's commands: what they print, and how they end on bad input.

use std::fs;
use std::path::{Path, PathBuf};
use std::process::{Command, Output};

/// Runs the harness.
fn harness(arguments: &[&str]) -> Output {
    Command::new(env!("CARGO_BIN_EXE_harness"))
        .args(arguments)
        .output()
        .expect("it can be run")
}

/// The corpus's directory.
fn vectors() -> String {
    format!("{}/../vectors", env!("CARGO_MANIFEST_DIR"))
}

/// A fresh directory for one test.
fn fresh(name: &str) -> PathBuf {
    let directory = Path::new(env!("CARGO_TARGET_TMPDIR")).join(name);
    let _ = fs::remove_dir_all(&directory);
    fs::create_dir_all(&directory).expect("a directory can be made");
    directory
}

/// Fails unless the harness ends with status 2 and says this on standard error.
fn assert_bad_input(arguments: &[&str], says: &str) {
    let output = harness(arguments);
    let error = String::from_utf8_lossy(&output.stderr);
    assert_eq!(output.status.code(), Some(2), "{arguments:?}: {error}");
    assert!(error.contains(says), "{arguments:?}: {error}");
    assert!(output.stdout.is_empty());
}

#[test]
fn bad_arguments_end_with_status_2() {
    assert_bad_input(&[], "usage");
    assert_bad_input(&["corpse"], "usage");
    assert_bad_input(&["corpus"], "usage");
    assert_bad_input(&["generated", "1"], "usage");
    assert_bad_input(&["generated", "one", "2"], "SEED `one`");
    assert_bad_input(&["generated", "1", "-2"], "COUNT `-2`");
    assert_bad_input(&["judged"], "usage");
    assert_bad_input(&["judged", "one"], "SEED `one`");
    assert_bad_input(&["judged", "1", "2.5"], "COUNT `2.5`");
    assert_bad_input(&["one-trace"], "usage");
    assert_bad_input(&["one-trace", "one"], "SEED `one`");
    assert_bad_input(&["one-trace", "1", "x"], "COUNT `x`");
    assert_bad_input(&["forms"], "usage");
    assert_bad_input(&["write-forms"], "usage");
    assert_bad_input(&["--guards"], "usage");
    assert_bad_input(&["--guards", "show", "x"], "usage");
    assert_bad_input(&["write-corpus", "x", "y"], "SEED `y`");
}

#[test]
fn unreadable_and_malformed_files_end_with_status_2() {
    let directory = fresh("malformed");
    let text = |path: &Path| path.to_string_lossy().into_owned();
    assert_bad_input(&["corpus", &text(&directory.join("absent"))], "absent");
    assert_bad_input(&["corpus", &text(&directory)], "no corpus file");
    assert_bad_input(
        &["show", &text(&directory.join("absent.txt"))],
        "absent.txt",
    );
    assert_bad_input(
        &["listing", &text(&directory.join("absent"))],
        "no directory",
    );
    assert_bad_input(
        &["write-corpus", &text(&directory.join("absent")), "1"],
        "absent",
    );
    let file = directory.join("bad.txt");
    fs::write(&file, "case x\nprogram zz\n").expect("a file can be written");
    assert_bad_input(&["corpus", &text(&directory)], "bad.txt: line 2");
    assert_bad_input(&["show", &text(&file)], "bad.txt: line 2");
    fs::write(&file, [0xff, 0xfe]).expect("a file can be written");
    assert_bad_input(&["corpus", &text(&directory)], "bad.txt");
    let runs = format!("{}/runs.txt", vectors());
    assert_bad_input(&["show", &runs, "run-z"], "no case named `run-z`");
}

/// Fails unless the corpus file with this change ends with status 1 and prints these parts.
fn assert_disagreement(file: &str, (from, to): (&str, &str), parts: &[&str]) {
    let directory = fresh(&format!("disagreement-{}", parts[0].replace(' ', "-")));
    let path = format!("{}/{file}", vectors());
    let cases = fs::read_to_string(path).expect("the file is there");
    assert!(cases.contains(from));
    fs::write(directory.join(file), cases.replace(from, to)).expect("a file can be written");
    let output = harness(&["corpus", &directory.to_string_lossy()]);
    let text = String::from_utf8_lossy(&output.stdout);
    assert_eq!(output.status.code(), Some(1), "{text}");
    for part in parts {
        assert!(text.contains(part), "{part}: {text}");
    }
}

#[test]
fn a_disagreement_ends_with_status_1() {
    let input = ["program 0202", "record 000b", "right:", "subject:"];
    assert_disagreement(
        "runs.txt",
        ("answer ring 3 4 5", "answer ring 3 5 4"),
        &[&["case run-b"], &input[..]].concat(),
    );
    assert_disagreement(
        "runs.txt",
        ("listing group 4 bar 0 6", "listing group 4 bar 1 6"),
        &[&["the listing differs"], &input[..]].concat(),
    );
    assert_disagreement(
        "runs.txt",
        ("slip 0300040003", "slip 0300030004"),
        &[&["the slip writer differs"], &input[..]].concat(),
    );
    assert_disagreement(
        "slips.txt",
        ("answer counts 0 7 0", "answer counts 7 0 0"),
        &[
            "the slip reader differs",
            "slip-case slip-second-of-3",
            "ranks 3",
            "slip 020007",
            "lent entries 3",
        ],
    );
    assert_disagreement(
        "starts.txt",
        (
            "answer ring 3 4 5\ncells 1 2 2 1",
            "answer ring 3 4 5\ncells 1 2 2 2",
        ),
        &["case starts-run-b", "start 0000000000000003001e0007"],
    );
    assert_disagreement(
        "starts.txt",
        (
            "answer start 00000000000000010007",
            "answer start 00000000000000010008",
        ),
        &[
            "the start writer differs",
            "start-write-case start-write-1-by-1-exact",
            "program 010101010100",
            "cells 0007",
        ],
    );
    assert_disagreement(
        "starts.txt",
        ("answer cells 1 2 2 1", "answer cells 1 2 2 2"),
        &[
            "the start reader differs",
            "start-read-case start-read-2-by-2-exact",
            "start 0000000000000003000100020000000000000003",
        ],
    );
}

#[test]
fn the_corpus_and_generated_inputs_agree() {
    let output = harness(&["corpus", &vectors()]);
    assert_eq!(output.status.code(), Some(0));
    let output = harness(&["generated", "4", "500"]);
    let text = String::from_utf8_lossy(&output.stdout);
    assert_eq!(output.status.code(), Some(0));
    assert!(
        text.starts_with("generated: 500 inputs agree, seed 4"),
        "{text}"
    );
}

/// Fails unless a command agrees, with its memory lent in either way, and begins with these words.
fn assert_agrees(command: &[&str], begin: &str) {
    for option in [&[][..], &["--guards"]] {
        let output = harness(&[option, command].concat());
        let text = String::from_utf8_lossy(&output.stdout);
        assert_eq!(output.status.code(), Some(0), "{text}");
        assert!(text.starts_with(begin), "{text}");
    }
}

#[test]
fn answers_on_small_records_are_judged() {
    assert_agrees(&["judged", "4", "500"], "judged: 500 answers hold, seed 4");
}

#[test]
fn answers_on_records_of_one_trace_are_laid_side_by_side() {
    assert_agrees(
        &["one-trace", "4", "300"],
        "one-trace: 300 records hold, seed 4",
    );
}

/// The file of a fresh table, and its text.
fn table_in(name: &str) -> (String, String) {
    let file = fresh(name).join("table").to_string_lossy().into_owned();
    let output = harness(&["write-forms", &file]);
    assert_eq!(output.status.code(), Some(0));
    let text = fs::read_to_string(&file).expect("the table is there");
    (file, text)
}

#[test]
fn the_subject_is_held_to_a_written_table() {
    let (file, _) = table_in("table");
    for option in [&[][..], &["--guards"]] {
        let output = harness(&[option, &["forms", &file]].concat());
        let text = String::from_utf8_lossy(&output.stdout);
        assert_eq!(output.status.code(), Some(0), "{text}");
        assert!(text.starts_with("forms: all pairs agree ("), "{text}");
        let counts = "good 26  unknown-kind 63232  wrong-map 2278\n";
        assert_eq!(text.matches(counts).count(), 3, "{text}");
    }
}

#[test]
fn a_verdict_that_is_not_the_tables_ends_with_status_1() {
    let (file, table) = table_in("other-table");
    let changed = table.replace("kind 9 map 59 wrong-map", "kind 9 map 59 good");
    fs::write(&file, changed).expect("a file can be written");
    let output = harness(&["forms", &file]);
    let text = String::from_utf8_lossy(&output.stdout);
    assert_eq!(output.status.code(), Some(1), "{text}");
    let begin = "kind 9 map 59: good in the table, wrong-map by the check\nprogram 02030202";
    assert!(text.starts_with(begin), "{text}");
    assert!(text.contains("\nrecord 00013b09\n"), "{text}");
}

#[test]
fn damaged_tables_end_with_status_2() {
    let (file, table) = table_in("damaged-table");
    let line = "kind 0 map 9 unknown-kind\n";
    for other in ["", "kind 0 map 9 maybe\n", "kind 9 map 0 unknown-kind\n"] {
        fs::write(&file, table.replace(line, other)).expect("a file can be written");
        assert_bad_input(&["forms", &file], "table: line 10: `kind 0 map 9`");
    }
    fs::write(&file, format!("{table}{line}")).expect("a file can be written");
    assert_bad_input(&["forms", &file], "table: line 65537");
    fs::write(&file, [0xff, 0xfe]).expect("a file can be written");
    assert_bad_input(&["forms", &file], "table: ");
    assert_bad_input(&["forms", &format!("{file}/absent")], "table/absent: ");
    assert_bad_input(
        &["write-forms", &format!("{file}/absent")],
        "table/absent: ",
    );
}

#[test]
fn one_case_is_shown_for_a_person() {
    let output = harness(&["show", &format!("{}/runs.txt", vectors()), "run-e"]);
    let text = String::from_utf8_lossy(&output.stdout);
    let right = "run-e: as the file says\nanswer ring [0, 1] cells [7, 7]\nring 2\n\
        group 0 write 1 0\ngroup 1 store 1 1\ncell 1 0 7\ncell 1 1 7\n";
    assert_eq!(text, right);
}

#[test]
fn a_case_is_shown_with_its_start() {
    let shown = |name| {
        let output = harness(&["show", &format!("{}/starts.txt", vectors()), name]);
        String::from_utf8_lossy(&output.stdout).into_owned()
    };
    let right = "starts-run-d: as the file says\nstart 0000000000000001ffff\n\
        answer order [0] cells [65535, 0]\norder 1\ngroup 0 write 1 0\ncell 1 0 65535\n";
    assert_eq!(shown("starts-run-d"), right);
    let right = "start-read-cut: as the file says\nstart 000000000000000000000000000000\n\
        answer Err(Refusal { number: 19, place: 15 })\n";
    assert_eq!(shown("start-read-cut"), right);
    let right = "start-write-1-by-1-exact: as the file says\ncells [7]\n\
        answer Ok([0, 0, 0, 0, 0, 0, 0, 1, 0, 7])\n";
    assert_eq!(shown("start-write-1-by-1-exact"), right);
}

#[test]
fn the_listing_program_takes_a_file_it_cannot_open_as_empty() {
    let directory = fresh("listing");
    let list = || {
        let output = harness(&["listing", &directory.to_string_lossy()]);
        (
            output.status.code(),
            String::from_utf8_lossy(&output.stdout).into_owned(),
        )
    };
    assert_eq!(list(), (Some(0), "refused 1 0\n".into()));
    fs::write(directory.join("run.prg"), [1, 1, 1, 1, 1, 0]).expect("a file can be written");
    assert_eq!(list(), (Some(0), "refused 4 0\n".into()));
    fs::write(directory.join("run.rec"), [0, 0]).expect("a file can be written");
    assert_eq!(list(), (Some(0), "order 0\n".into()));
    let readings = [0, 0, 0, 0, 0, 0, 0, 1, 1, 2];
    fs::write(directory.join("run.sta"), readings).expect("a file can be written");
    assert_eq!(list(), (Some(0), "order 0\ncell 1 0 258\n".into()));
    fs::write(directory.join("run.sta"), []).expect("a file can be written");
    assert_eq!(list(), (Some(0), "order 0\n".into()));
    fs::write(directory.join("run.sta"), [0; 9]).expect("a file can be written");
    assert_eq!(list(), (Some(0), "refused 19 8\n".into()));
    fs::remove_file(directory.join("run.rec")).expect("a file can be removed");
    assert_eq!(list(), (Some(0), "refused 19 8\n".into()));
}
