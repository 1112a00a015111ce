//! Cases of document 02's #108, order only towards one neighbour: numbers, places, orders, rings,
//! cells, slips and listings worked out by hand; then small runs that the exhaustive judge confirms.

mod choice;
mod fields;
mod limits;
mod maps;
mod rings;
mod taken;
mod waiting;

use super::chosen::{renewed_cases, Source};
use super::parts::{command, naming, popa, popb, read, store, write};
use super::row::{cells_with, own_order, Row};
use super::{cases_by_hand, Named};
use crate::corpus::Expected;
use crate::generator::edition::Edition;
use crate::generator::neighbours::small_run;
use crate::generator::rng::Rng;
use crate::generator::widen::Run;
use crate::machine::Machine;
use crate::program::{Kind, Program, Transition};
use crate::record::{record_bytes, Item};

/// The family's name, with which the names of its cases begin.
const FAMILY: &str = "neighbours";
/// How many judged runs each class has for each kind that its groups may have.
const JUDGED_PER_KIND: usize = 3;
/// The most bytes of a judged run's record.
const JUDGED_BYTES: usize = 130;

/// A program of so many ranks, of eight cells each, with these transitions: R 1, Q 2, S 1.
fn machine(ranks: usize, transitions: &[Transition]) -> Program {
    Program {
        ranks,
        cells: 8,
        registers: 1,
        queues: 2,
        states: 1,
        transitions: transitions.to_vec(),
    }
}

/// A cell by its rank and number.
type Place = (usize, usize);

/// A transfer with all that is known of it, so that no two of them access the same cell but that
/// they may fetch from the same.
#[derive(Clone, Copy)]
struct Transfer {
    /// What the cases' names call it: `w` or `r`, and its remote rank.
    name: &'static str,
    /// Its kind.
    kind: Kind,
    /// Its own cell, remote rank and remote cell.
    operands: [u16; 3],
    /// The cell that it fetches from, if rank 1 issues it.
    source: Place,
    /// The cell that it is delivered to, if rank 1 issues it.
    destination: Place,
    /// What it carries: cell 0 of each rank holds 5, and cell 1 holds 6.
    value: u16,
}

/// A write to rank 2.
const W2: Transfer = write_of("w2", [0, 2, 2], 5);
/// A second write to rank 2, from another cell and to another.
const W2_AGAIN: Transfer = write_of("w2-again", [1, 2, 5], 6);
/// A write to rank 3.
const W3: Transfer = write_of("w3", [1, 3, 3], 6);
/// A write to the own rank, if that is 1.
const W1: Transfer = write_of("w1", [0, 1, 4], 5);
/// A read from rank 2.
const R2: Transfer = read_of("r2", [5, 2, 0], 5);
/// A read from rank 3.
const R3: Transfer = read_of("r3", [6, 3, 1], 6);
/// A read from the own rank, if that is 1.
const R1: Transfer = read_of("r1", [7, 1, 1], 6);

/// A write of rank 1.
const fn write_of(name: &'static str, operands: [u16; 3], value: u16) -> Transfer {
    let [own, rank, remote] = operands;
    Transfer {
        name,
        kind: Kind::Write,
        operands,
        source: (1, own as usize),
        destination: (rank as usize, remote as usize),
        value,
    }
}

/// A read of rank 1.
const fn read_of(name: &'static str, operands: [u16; 3], value: u16) -> Transfer {
    let [own, rank, remote] = operands;
    Transfer {
        name,
        kind: Kind::Read,
        operands,
        source: (rank as usize, remote as usize),
        destination: (1, own as usize),
        value,
    }
}

impl Transfer {
    /// The remote rank: for a read, the rank read from.
    fn remote(&self) -> usize {
        self.operands[1].into()
    }

    /// The transition.
    fn transition(&self) -> Transition {
        let [own, rank, remote] = self.operands;
        match self.kind {
            Kind::Read => read(own, rank, remote),
            _ => write(own, rank, remote),
        }
    }

    /// The plain popa that takes it, of rank 1.
    fn popa(&self) -> Item {
        popa(1, self.source)
    }

    /// The plain popb that takes it, of rank 1.
    fn popb(&self) -> Item {
        popb(1, self.destination)
    }

    /// The popa that takes it and names its remote rank.
    fn named_popa(&self) -> Item {
        naming(self.popa(), self.remote())
    }

    /// The popb that takes it and names its remote rank.
    fn named_popb(&self) -> Item {
        naming(self.popb(), self.remote())
    }

    /// The popa that takes it, with its name or without.
    fn popa_with(&self, name: bool) -> Item {
        if name {
            self.named_popa()
        } else {
            self.popa()
        }
    }

    /// The popb that takes it, with its name or without.
    fn popb_with(&self, name: bool) -> Item {
        if name {
            self.named_popb()
        } else {
            self.popb()
        }
    }
}

/// The transitions of a program for these transfers: the stores of 5 in cell 0 and of 6 in cell 1,
/// then the transfers.
fn program_of(transfers: &[Transfer]) -> Program {
    let mut transitions = vec![store(0, 5), store(1, 6)];
    transitions.extend(transfers.iter().map(Transfer::transition));
    machine(3, &transitions)
}

/// The items of rank 1 that issue all transfers of the program.
fn issued(transfers: &[Transfer]) -> Vec<Item> {
    let issue = |(number, transfer): (usize, &Transfer)| command(transfer.kind, 1, number + 2);
    transfers.iter().enumerate().map(issue).collect()
}

/// A refused row with these bytes.
fn refused_bytes(what: &str, inputs: [Vec<u8>; 2], number: u8, place: usize) -> Row {
    Row::refused(FAMILY, what, inputs, number, place)
}

/// A refused row of a program and items.
fn refused(what: &str, program: &Program, items: &[Item], number: u8, place: usize) -> Row {
    let inputs = [program.to_bytes(), record_bytes(items)];
    refused_bytes(what, inputs, number, place)
}

/// A row that is accepted with this answer and these cells, all others being 0 at the end.
fn accepted(
    what: &str,
    program: &Program,
    items: &[Item],
    answer: Expected,
    values: &[(Place, u16)],
) -> Row {
    let last = cells_with(program, values);
    Row::accepted(FAMILY, what, (program, items), answer, last)
}

/// All rows of the check.
fn rows() -> Vec<Row> {
    let parts = [
        choice::rows(),
        taken::rows(),
        rings::rows(),
        waiting::rows(),
        fields::rows(),
        maps::rows(),
        limits::rows(),
    ];
    parts.into_iter().flatten().collect()
}

/// A small random run with a short record, in which a transfer overtakes another.
fn overtaking_run(rng: &mut Rng, edition: Edition) -> Run {
    loop {
        let run = small_run(rng, edition);
        let short = record_bytes(&run.2).len() <= JUDGED_BYTES;
        if short && overtakes(&run) {
            return run;
        }
    }
}

/// Whether a pop of an accepted record takes an entry other than the oldest of all.
fn overtakes((program, start, items): &Run) -> bool {
    let mut machine = Machine::new(program, start);
    items.iter().any(|item| {
        let oldest = machine.remotes_waiting(item.act).first().copied();
        let named = item.act.pop().and_then(|pop| pop.remote);
        let refused = machine.step(program, item).is_err();
        !refused && named.is_some() && named != oldest
    })
}

/// The file of #108; a row that the second program answers otherwise is a fault, and so is an
/// order or ring that the searches do not confirm.
pub fn file(seed: u64) -> Result<Named, String> {
    let mut cases = cases_by_hand(rows())?;
    let dated = Source {
        family: "neighbours-judged",
        maker: overtaking_run,
        edition: Edition::Before102,
        seed,
        per_kind: JUDGED_PER_KIND,
    };
    cases.extend(renewed_cases(&dated, "neighbours-judged-later")?);
    let head = "# Order only towards one neighbour, #108 of document 02; answers worked out by \
        hand, and after\n# them small runs confirmed by the exhaustive judge.\n";
    Ok(Named::new("neighbours.txt", head, &cases))
}
