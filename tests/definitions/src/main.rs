//! Writes corpus cases as theorems about the definitions of `crates/model`; `rt all check` then computes them.

#![forbid(unsafe_code)]

mod theorems;

use second::corpus::Case;
use second::corpus_reader::read_file;
use std::cmp::Reverse;
use std::fs;
use std::path::Path;
use std::process::ExitCode;
use theorems::Theorem;

/// Cases of so many bytes are computed whole, by every definition.
const LONGEST: usize = 160;

/// Of longer ones, which the checker computes slowly, the runs that are an order or a ring are computed by the check alone: programs of up to so
/// many bytes, 400 short transitions among them, with starts and records of up to so many together.
const LONGEST_PROGRAM: usize = 1_700;
const LONGEST_RECORD: usize = 130;

/// Theorems to a file, so that none is long to check.
const PER_FILE: usize = 40;

/// The crates of theorems: `rt` checks them side by side.
const CRATES: [&str; 2] = ["cases_a", "cases_b"];

/// What every file of theorems begins with.
const HEAD: &str = "-- Cases of the corpus, each computed by the definitions.
use Rattle.std.specs.Prelude.{ℕ, ◌≡◌, List, [], ◌∷◌, ◌++◌, replicate, Ok, Err}
use Rattle.std.proofs.Math.Path.{refl}
use Rattle.model.specs.declared.Verdict.TheVariants.{Order, Ring}
use Rattle.model.specs.Formats.{item_maps}
use Rattle.model.specs.Checks.{check_in, check, check_bytes_in, check_bytes}
use Rattle.model.specs.Slips.{write_slip_in, write_slip, read_slip_in, read_slip}
use Rattle.model.specs.Starts.{write_start, write_start_bytes, read_start_into, read_start_into_bytes}
use Rattle.model.specs.Listings.{listing_in, listing}
";

/// A theorem and the name of its case.
type Named<'a> = (&'a str, Theorem);

/// The theorems of a case, the one with this number; none if it is too long.
fn theorems_of(number: usize, case: &Case) -> Vec<Theorem> {
    match (length_of(case), case) {
        (0..=LONGEST, _) => theorems::of_case(number, case),
        (_, Case::Check(check))
            if check.program.len() <= LONGEST_PROGRAM
                && check.start.len() + check.record.len() <= LONGEST_RECORD =>
        {
            theorems::of_run(check).into_iter().collect()
        }
        _ => vec![],
    }
}

/// How many bytes go into a case, two for each entry of a list that is read.
fn length_of(case: &Case) -> usize {
    match case {
        Case::Check(case) => case.program.len() + case.start.len() + case.record.len(),
        Case::Slip(case) => case.slip.len(),
        Case::StartWrite(case) => case.program.len() + 2 * case.cells.len(),
        Case::StartRead(case) => case.program.len() + case.start.len(),
    }
}

/// What a failed file operation is told as.
fn told(what: &Path, error: std::io::Error) -> String {
    format!("{}: {error}", what.display())
}

/// Writes a file and the folder that it stands in.
fn put(path: &Path, text: &str) -> Result<(), String> {
    let folder = path.parent().unwrap_or(path);
    let written = fs::create_dir_all(folder).and_then(|()| fs::write(path, text));
    written.map_err(|error| told(path, error))
}

/// Copies the definitions without the proofs about them.
fn copy_model(from: &Path, to: &Path) -> Result<(), String> {
    for part in ["src", "specs"] {
        let (from, to) = (from.join(part), to.join(part));
        fs::create_dir_all(&to).map_err(|error| told(&to, error))?;
        for entry in fs::read_dir(&from).map_err(|error| told(&from, error))? {
            let entry = entry.map_err(|error| told(&from, error))?;
            fs::copy(entry.path(), to.join(entry.file_name()))
                .map_err(|error| told(&from, error))?;
        }
    }
    Ok(())
}

/// What a definition computes by, in today's format. Slip reader and starts have no items, and starts are today's alone.
fn unfolded(definition: &str) -> String {
    match definition {
        "read_slip" => String::from("read_slip_in"),
        "write_start" | "write_start_bytes" | "read_start_into" | "read_start_into_bytes" => {
            String::from(definition)
        }
        _ => format!("item_maps {definition}_in"),
    }
}

/// The text of a file of theorems.
fn file_of(theorems: &[Named]) -> String {
    let mut text = String::from(HEAD);
    for (i, (name, theorem)) in theorems.iter().enumerate() {
        let (definition, arguments) = (theorem.definition, &theorem.arguments);
        text += &format!("\n-- {name}\n");
        text += &format!("case{i} : {definition} {arguments} ≡ {}\n", theorem.result);
        text += &format!("unfolding {}\ncase{i} = refl\n", unfolded(definition));
    }
    text
}

/// Shares the theorems out, so that no crate takes much longer to check than another: the longest first, each to the crate that has least.
fn shared(mut theorems: Vec<Named>) -> Vec<Vec<Named>> {
    let mut lengths = CRATES.map(|_| 0);
    let mut shares = CRATES.map(|_| vec![]);
    theorems.sort_by_key(|(_, theorem)| Reverse(theorem.arguments.len()));
    for named in theorems {
        let least = (0..CRATES.len()).min_by_key(|&share| lengths[share]);
        let share = least.unwrap_or_default();
        lengths[share] += named.1.arguments.len();
        shares[share].push(named);
    }
    shares.into()
}

/// Writes a crate of theorems on the definitions.
fn write_crate(folder: &Path, theorems: &[Named]) -> Result<(), String> {
    put(&folder.join("src/lib.rt"), "// Theorems only.\n")?;
    let mut modules = String::new();
    for (number, theorems) in theorems.chunks(PER_FILE).enumerate() {
        put(
            &folder.join(format!("proofs/Part{number}.antt")),
            &file_of(theorems),
        )?;
        modules += &format!("pub mod Part{number}\n");
    }
    put(&folder.join("proofs/Lib.antt"), &modules)
}

/// Writes the definitions and the theorems, and says what was written and what was left out.
fn write(repository: &Path, out: &Path, files: &[String]) -> Result<String, String> {
    let mut cases = vec![];
    for file in files {
        cases.extend(read_file(Path::new(file))?);
    }
    let computed: Vec<(&Case, Vec<Theorem>)> = cases
        .iter()
        .enumerate()
        .map(|(number, case)| (case, theorems_of(number, case)))
        .filter(|(_, theorems)| !theorems.is_empty())
        .collect();
    let (count, left) = (computed.len(), cases.len() - computed.len());
    let theorems: Vec<Named> = computed
        .into_iter()
        .flat_map(|(case, theorems)| theorems.into_iter().map(|theorem| (case.name(), theorem)))
        .collect();
    let written = theorems.len();
    copy_model(&repository.join("crates/model"), &out.join("crates/model"))?;
    let mut crates = String::from("model:\n");
    for (name, theorems) in CRATES.iter().zip(shared(theorems)) {
        write_crate(&out.join("crates").join(name), &theorems)?;
        crates += &format!("{name}: model\n");
    }
    put(&out.join("crates.txt"), &crates)?;
    Ok(format!(
        "{written} theorems on {count} cases; {left} longer cases left out"
    ))
}

fn main() -> ExitCode {
    let arguments: Vec<String> = std::env::args().skip(1).collect();
    let [repository, out, files @ ..] = arguments.as_slice() else {
        eprintln!("usage: definitions REPOSITORY OUT FILE..");
        return ExitCode::from(2);
    };
    match write(Path::new(repository), Path::new(out), files) {
        Ok(report) => {
            println!("{report}");
            ExitCode::SUCCESS
        }
        Err(message) => {
            eprintln!("definitions: {message}");
            ExitCode::from(2)
        }
    }
}
