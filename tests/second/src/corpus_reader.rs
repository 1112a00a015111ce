//! Reading the corpus form; every fault names its line.

use crate::corpus::{Case, CheckCase, Expected, SlipCase, StartReadCase, StartWriteCase};
use crate::limits::{number::ALL, Refusal};
use std::collections::BTreeSet;
use std::fs;
use std::path::{Path, PathBuf};

/// The lines of a corpus text that hold something, each with its number and split at its key.
struct Lines<'a> {
    /// Line number, key and value of the lines left, the last first.
    left: Vec<(usize, &'a str, &'a str)>,
    /// The number of the line last taken.
    line: usize,
}

impl<'a> Lines<'a> {
    /// Splits the text; empty lines and lines that begin with `#` are skipped.
    fn new(text: &'a str) -> Lines<'a> {
        let mut left: Vec<_> = text
            .lines()
            .enumerate()
            .filter(|(_, line)| !line.is_empty() && !line.starts_with('#'))
            .map(|(index, line)| {
                let (key, value) = line.split_once(' ').unwrap_or((line, ""));
                (index + 1, key, value)
            })
            .collect();
        left.reverse();
        Lines { left, line: 0 }
    }

    /// A fault at the line last taken.
    fn fault<T>(&self, what: impl AsRef<str>) -> Result<T, String> {
        Err(format!("line {}: {}", self.line, what.as_ref()))
    }

    /// The key of the next line, if there is one.
    fn next_key(&self) -> Option<&'a str> {
        self.left.last().map(|(_, key, _)| *key)
    }

    /// Takes the next line, which must have this key, and gives its value.
    fn take(&mut self, key: &str) -> Result<&'a str, String> {
        let Some((line, found, value)) = self.left.pop() else {
            return self.fault(format!("the text ends where `{key}` must follow"));
        };
        self.line = line;
        if found != key {
            return self.fault(format!("`{key}` expected, `{found}` found"));
        }
        Ok(value)
    }

    /// Takes a line with a decimal number.
    fn number(&mut self, key: &str) -> Result<usize, String> {
        let value = self.take(key)?;
        match value.parse() {
            Ok(number) => Ok(number),
            Err(_) => self.fault(format!("`{value}` is no number")),
        }
    }

    /// Takes a line with bytes in hexadecimal, or a dash for none.
    fn bytes(&mut self, key: &str) -> Result<Vec<u8>, String> {
        let value = self.take(key)?;
        self.hex(value)
    }

    /// Reads bytes in hexadecimal, or a dash for none.
    fn hex(&self, value: &str) -> Result<Vec<u8>, String> {
        if value == "-" {
            return Ok(Vec::new());
        }
        match from_hex(value) {
            Some(bytes) => Ok(bytes),
            None => self.fault("the value is not whole bytes in hexadecimal"),
        }
    }

    /// Reads 16-bit numbers in decimal.
    fn words<'b>(&self, words: impl Iterator<Item = &'b str>) -> Result<Vec<u16>, String> {
        let mut numbers = Vec::new();
        for word in words {
            match word.parse() {
                Ok(number) => numbers.push(number),
                Err(_) => return self.fault(format!("`{word}` is no 16-bit number")),
            }
        }
        Ok(numbers)
    }

    /// Reads the number and place of a refusal.
    fn refusal(&self, words: &[&str]) -> Result<Refusal, String> {
        let parsed = match words {
            [number, place] => number.parse().ok().zip(place.parse().ok()),
            _ => None,
        };
        match parsed {
            Some((number, place)) if ALL.contains(&number) => Ok(Refusal { number, place }),
            _ => self.fault("a refusal has a number from 1 to 16, 18 or 19, and a place"),
        }
    }
}

/// Bytes from hexadecimal digits; none if they are not whole bytes.
fn from_hex(text: &str) -> Option<Vec<u8>> {
    let digit = |c: u8| (c as char).to_digit(16).map(|digit| digit as u8);
    let pairs = text.as_bytes().chunks(2);
    pairs
        .map(|pair| Some(digit(pair[0])? << 4 | digit(*pair.get(1)?)?))
        .collect()
}

/// Reads all cases of a corpus text; names must differ.
pub fn parse(text: &str) -> Result<Vec<Case>, String> {
    let mut lines = Lines::new(text);
    let mut cases = Vec::new();
    let mut names = BTreeSet::new();
    while let Some(key) = lines.next_key() {
        let case = match key {
            "slip-case" => Case::Slip(slip_case(&mut lines)?),
            "start-write-case" => Case::StartWrite(start_write_case(&mut lines)?),
            "start-read-case" => Case::StartRead(start_read_case(&mut lines)?),
            _ => Case::Check(check_case(&mut lines)?),
        };
        if !names.insert(case.name().to_string()) {
            return lines.fault(format!("a second case named `{}`", case.name()));
        }
        cases.push(case);
    }
    Ok(cases)
}

/// Reads one case of the whole check.
fn check_case(lines: &mut Lines) -> Result<CheckCase, String> {
    let name = lines.take("case")?.to_string();
    let program = lines.bytes("program")?;
    let mut start = Vec::new();
    if lines.next_key() == Some("start") {
        start = lines.bytes("start")?;
    }
    let record = lines.bytes("record")?;
    let order_entries = lines.number("order-entries")?;
    let cell_entries = lines.number("cell-entries")?;
    let words: Vec<&str> = lines.take("answer")?.split(' ').collect();
    let answer = match words[0] {
        "order" => Expected::Order(lines.words(words[1..].iter().copied())?),
        "ring" => Expected::Ring(lines.words(words[1..].iter().copied())?),
        "refused" => Expected::Refused(lines.refusal(&words[1..])?),
        other => return lines.fault(format!("`{other}` is no answer of a check")),
    };
    let mut cells = Vec::new();
    if !matches!(answer, Expected::Refused(_)) {
        let value = lines.take("cells")?;
        cells = lines.words(value.split(' '))?;
    }
    let mut slip = None;
    if lines.next_key() == Some("slip") {
        slip = Some(lines.bytes("slip")?);
    }
    let mut listing = format!("{}\n", lines.take("listing")?);
    while lines.next_key() == Some("listing") {
        listing.push_str(lines.take("listing")?);
        listing.push('\n');
    }
    lines.take("end")?;
    Ok(CheckCase {
        name,
        program,
        start,
        record,
        order_entries,
        cell_entries,
        answer,
        cells,
        slip,
        listing,
    })
}

/// Reads one case of the slip reader.
fn slip_case(lines: &mut Lines) -> Result<SlipCase, String> {
    let name = lines.take("slip-case")?.to_string();
    let ranks = lines.number("ranks")?;
    let slip = lines.bytes("slip")?;
    let counts_entries = lines.number("counts-entries")?;
    let words: Vec<&str> = lines.take("answer")?.split(' ').collect();
    let answer = match words[0] {
        "counts" => Ok(lines.words(words[1..].iter().copied())?),
        "refused" => Err(lines.refusal(&words[1..])?),
        other => return lines.fault(format!("`{other}` is no answer of a slip reader")),
    };
    lines.take("end")?;
    Ok(SlipCase {
        name,
        ranks,
        slip,
        counts_entries,
        answer,
    })
}

/// Reads one case of the writer of start bytes.
fn start_write_case(lines: &mut Lines) -> Result<StartWriteCase, String> {
    let name = lines.take("start-write-case")?.to_string();
    let program = lines.bytes("program")?;
    let value = lines.take("cells")?;
    let cells = lines.words(value.split(' ').filter(|word| !word.is_empty()))?;
    let start_bytes = lines.number("start-bytes")?;
    let words: Vec<&str> = lines.take("answer")?.split(' ').collect();
    let answer = match words[..] {
        ["start", hex] => Ok(lines.hex(hex)?),
        ["refused", ..] => Err(lines.refusal(&words[1..])?),
        _ => return lines.fault("this is no answer of a writer of start bytes"),
    };
    lines.take("end")?;
    Ok(StartWriteCase {
        name,
        program,
        cells,
        start_bytes,
        answer,
    })
}

/// Reads one case of the reader of start bytes.
fn start_read_case(lines: &mut Lines) -> Result<StartReadCase, String> {
    let name = lines.take("start-read-case")?.to_string();
    let program = lines.bytes("program")?;
    let start = lines.bytes("start")?;
    let cell_entries = lines.number("cell-entries")?;
    let words: Vec<&str> = lines.take("answer")?.split(' ').collect();
    let answer = match words[0] {
        "cells" => Ok(lines.words(words[1..].iter().copied())?),
        "refused" => Err(lines.refusal(&words[1..])?),
        other => return lines.fault(format!("`{other}` is no answer of a reader of start bytes")),
    };
    lines.take("end")?;
    Ok(StartReadCase {
        name,
        program,
        start,
        cell_entries,
        answer,
    })
}

/// Reads one corpus file; a fault names the file.
pub fn read_file(path: &Path) -> Result<Vec<Case>, String> {
    let named = |fault: String| format!("{}: {fault}", path.display());
    let text = fs::read_to_string(path).map_err(|error| named(error.to_string()))?;
    parse(&text).map_err(named)
}

/// The corpus files of a directory, those that end in `.txt`, by name.
pub fn corpus_files(directory: &Path) -> Result<Vec<PathBuf>, String> {
    let named = |error: std::io::Error| format!("{}: {error}", directory.display());
    let mut files = Vec::new();
    for entry in fs::read_dir(directory).map_err(named)? {
        let path = entry.map_err(named)?.path();
        if path.extension().is_some_and(|extension| extension == "txt") {
            files.push(path);
        }
    }
    files.sort();
    if files.is_empty() {
        return Err(format!(
            "{}: no corpus file (*.txt) here",
            directory.display()
        ));
    }
    Ok(files)
}
