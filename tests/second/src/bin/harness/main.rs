//! The harness's commands; see `USAGE`.

#![deny(unsafe_code)]
#![warn(missing_docs)]

mod commands;
mod subject;

use std::io::Write;
use std::process::ExitCode;
use subject::Tested;

/// How many small records `judged` takes if it is not told.
const JUDGED_COUNT: u64 = 80_000;
/// How many records `one-trace` takes if it is not told.
const ONE_TRACE_COUNT: u64 = 20_000;

/// What is printed when the arguments are not understood.
const USAGE: &str = "usage:
  harness corpus DIR              compare the subject with every case of the corpus
  harness generated SEED COUNT    compare the subject with the second program on generated inputs
  harness judged SEED [COUNT]     judge the subject's answers on small records by exhaustive search
  harness one-trace SEED [COUNT]  lay the subject's answers on records of one trace side by side
  harness forms FILE              hold the subject to a table of verdicts on map and kind
  harness --guards ...            one of these five; the first program, if it is linked, is lent
                                  its lists between guard bytes and not at the ends of pages
  harness write-forms FILE        write the papers' table of verdicts on map and kind
  harness write-corpus DIR SEED   make the corpus files (all but the hand-written ones)
  harness show FILE [NAME]        print answer and listing of the cases of a corpus file
  harness listing DIR             print the listing of DIR/run.prg, DIR/run.sta and DIR/run.rec";

/// How a command ends when it does not succeed.
#[derive(Debug)]
pub enum Failure {
    /// Bad arguments, unreadable files, malformed corpus files or tables: exit status 2.
    Input(String),
    /// A disagreement: exit status 1.
    Disagreement(String),
}

/// What every command returns: what it prints at the end.
pub type Done = Result<String, Failure>;

/// Reads a decimal argument.
fn number(what: &str, text: &str) -> Result<u64, Failure> {
    text.parse()
        .map_err(|_| Failure::Input(format!("{what} `{text}` is no number")))
}

/// Runs the command that the arguments name.
fn run(arguments: &[&str]) -> Done {
    match arguments {
        ["corpus" | "generated" | "judged" | "one-trace" | "forms", ..] => {
            test(arguments, &Tested::usual())
        }
        ["--guards", arguments @ ..] => test(arguments, &Tested::between_guards()),
        ["write-forms", file] => commands::write_forms(file),
        ["write-corpus", directory, seed] => {
            commands::write_corpus(directory, number("SEED", seed)?)
        }
        ["show", file] => commands::show(file, None),
        ["show", file, name] => commands::show(file, Some(name)),
        ["listing", directory] => commands::listing(directory),
        _ => Err(Failure::Input(USAGE.into())),
    }
}

/// Runs a command that tests the subject.
fn test(arguments: &[&str], tested: &Tested) -> Done {
    match arguments {
        ["corpus", directory] => commands::corpus(tested, directory),
        ["generated", seed, count] => {
            commands::generated(tested, number("SEED", seed)?, number("COUNT", count)?)
        }
        ["judged", seed] => commands::judged(tested, number("SEED", seed)?, JUDGED_COUNT),
        ["judged", seed, count] => {
            commands::judged(tested, number("SEED", seed)?, number("COUNT", count)?)
        }
        ["one-trace", seed] => commands::one_trace(tested, number("SEED", seed)?, ONE_TRACE_COUNT),
        ["one-trace", seed, count] => {
            commands::one_trace(tested, number("SEED", seed)?, number("COUNT", count)?)
        }
        ["forms", file] => commands::forms(tested, file),
        _ => Err(Failure::Input(USAGE.into())),
    }
}

/// Runs the command and turns its end into an exit status.
fn main() -> ExitCode {
    let arguments: Vec<String> = std::env::args_os()
        .skip(1)
        .map(|argument| argument.to_string_lossy().into_owned())
        .collect();
    let arguments: Vec<&str> = arguments.iter().map(String::as_str).collect();
    match run(&arguments) {
        Ok(text) => print(&text, ExitCode::SUCCESS),
        Err(Failure::Disagreement(text)) => print(&format!("{text}\n"), ExitCode::from(1)),
        Err(Failure::Input(text)) => complain(&text),
    }
}

/// Prints the text and ends with the status; output that cannot be written is a complaint.
fn print(text: &str, status: ExitCode) -> ExitCode {
    match std::io::stdout().write_all(text.as_bytes()) {
        Ok(()) => status,
        Err(error) => complain(&format!("the output cannot be written: {error}")),
    }
}

/// Says on standard error what is wrong, and ends with status 2.
fn complain(text: &str) -> ExitCode {
    eprintln!("harness: {text}");
    ExitCode::from(2)
}
