//! The table of all verdicts, and its text: a line for each pair, as `kind 1 map 27 good`.

use super::{pairs, Form, Pair};
use std::fmt;
use std::fs;
use std::path::Path;

/// The verdict on each pair, in the order of `pairs`.
#[derive(Debug, Clone, PartialEq, Eq)]
pub struct Table(Vec<Form>);

impl Table {
    /// The papers' verdicts.
    pub fn of_the_papers() -> Table {
        Table(pairs().map(Pair::form).collect())
    }

    /// Each pair with its verdict.
    pub fn lines(&self) -> impl Iterator<Item = (Pair, Form)> + '_ {
        pairs().zip(self.0.iter().copied())
    }

    /// Reads a table's text, of which there is one for each table: all pairs in their order.
    pub fn parse(text: &str) -> Result<Table, String> {
        let mut forms = Vec::new();
        let mut lines = text.lines();
        for pair in pairs() {
            let verdict = lines
                .next()
                .and_then(|line| line.strip_prefix(&format!("{pair} ")));
            let Some(form) = verdict.and_then(Form::from_word) else {
                let line = forms.len() + 1;
                return Err(format!("line {line}: `{pair}` with a verdict expected"));
            };
            forms.push(form);
        }
        match lines.next() {
            None => Ok(Table(forms)),
            Some(_) => Err(format!("line {}: left over", forms.len() + 1)),
        }
    }

    /// Reads a table's file; a fault names the file.
    pub fn read(path: &Path) -> Result<Table, String> {
        let named = |fault: String| format!("{}: {fault}", path.display());
        let text = fs::read_to_string(path).map_err(|error| named(error.to_string()))?;
        Table::parse(&text).map_err(named)
    }
}

impl fmt::Display for Table {
    fn fmt(&self, out: &mut fmt::Formatter) -> fmt::Result {
        for (pair, form) in self.lines() {
            writeln!(out, "{pair} {}", form.word())?;
        }
        Ok(())
    }
}
