//! Holding a subject to a table: check, slip writer and listing, on every pair at every stand.

use super::inputs::{case, Stand, STANDS};
use super::table::Table;
use super::{Form, Pair, FORMS};
use crate::corpus::CheckCase;
use crate::extras::{compare_slip, compare_text, Extras, Tally, LISTING, SLIP_WRITER};
use crate::harness::{compare_odd, Observer};
use std::collections::BTreeMap;
use std::fmt;

/// A subject's functions that read a record, with the way memory is lent to them.
pub struct Readers<'a> {
    /// The check.
    pub check: Observer<'a>,
    /// Slip writer and listing.
    pub extras: &'a Extras<'a>,
}

/// Bytes lent to the slip writer, more than the run's slip needs.
const SLIP_BYTES: usize = 8;
/// Bytes lent to the listing, more than the run's text needs.
const LISTING_BYTES: usize = 256;

/// One of the functions.
struct Function {
    /// How it is called in what is printed.
    name: &'static str,
    /// Compares a subject's with a case.
    compare: fn(&Readers, &CheckCase) -> Result<(), String>,
}

/// The three functions.
const FUNCTIONS: [Function; 3] = [
    Function {
        name: "check",
        compare: |readers, case| {
            let compared = compare_odd(readers.check, case, 1);
            compared.map(drop).map_err(|fault| fault.to_string())
        },
    },
    Function {
        name: SLIP_WRITER,
        compare: |readers, case| {
            compare_slip(readers.extras, case, SLIP_BYTES, &mut Tally::default())
        },
    },
    Function {
        name: LISTING,
        compare: |readers, case| {
            compare_text(readers.extras, case, LISTING_BYTES, &mut Tally::default())
        },
    },
];

impl Function {
    /// Fails unless the answer shows this verdict on a pair; tells what it shows instead.
    fn shows(&self, readers: &Readers, stand: Stand, pair: Pair, form: Form) -> Result<(), String> {
        let compare = |form| (self.compare)(readers, &case(stand, pair, form));
        compare(form).map_err(|fault| {
            let other = FORMS.into_iter().find(|&form| compare(form).is_ok());
            let other = other.map_or("no verdict", Form::word);
            let (name, form) = (self.name, form.word());
            format!("{pair}: {form} in the table, {other} by the {name}\n{fault}")
        })
    }
}

/// Holds a subject to a table: counts the verdicts that its functions show, or tells of the first
/// that is not the table's. Pairs alone come first, since they do not depend on other items.
pub fn hold(table: &Table, readers: &Readers) -> Result<Shown, String> {
    let mut shown = Shown::default();
    for stand in STANDS {
        shown = hold_at(stand, table, readers)?;
    }
    Ok(shown)
}

/// Holds a subject to a table with the pairs at this stand.
fn hold_at(stand: Stand, table: &Table, readers: &Readers) -> Result<Shown, String> {
    let mut shown = Shown::default();
    for (pair, form) in table.lines() {
        for function in &FUNCTIONS {
            function.shows(readers, stand, pair, form)?;
            let forms = shown.0.entry(function.name).or_default();
            *forms.entry(form).or_default() += 1;
        }
    }
    Ok(shown)
}

/// For how many pairs each function shows each verdict, the same at every stand.
#[derive(Debug, Default, Clone, PartialEq, Eq)]
pub struct Shown(pub BTreeMap<&'static str, BTreeMap<Form, usize>>);

impl fmt::Display for Shown {
    fn fmt(&self, out: &mut fmt::Formatter) -> fmt::Result {
        for (function, forms) in &self.0 {
            write!(out, "{function:11}")?;
            for (form, pairs) in forms {
                write!(out, "  {} {pairs}", form.word())?;
            }
            writeln!(out)?;
        }
        Ok(())
    }
}
