//! The program bytes: header and transitions.

use crate::bytes::{below, within, ByteReader};
use crate::expression::Expression;
use crate::limits::{
    number, refuse, Outcome, LONG_COUNT, MAX_CELLS, MAX_QUEUES, MAX_RANKS, MAX_REGISTERS,
    MAX_SHORT_COUNT, MAX_STATES, MAX_TRANSITIONS,
};

/// The kinds of commands and items.
#[derive(Debug, Clone, Copy, PartialEq, Eq, PartialOrd, Ord)]
pub enum Kind {
    /// Kind 1: a register takes an own cell.
    Load,
    /// Kind 2: an own cell takes a value.
    Store,
    /// Kind 3: a register takes a value.
    Assign,
    /// Kind 4: passes if its value is not 0.
    Assume,
    /// Kind 5: asks for a copy of a remote cell to an own cell.
    Read,
    /// Kind 6: asks for a copy of an own cell to a remote cell.
    Write,
    /// Kind 7: fetches for a request of a queue; items only.
    PopA,
    /// Kind 8: writes a delivery of a queue; items only.
    PopB,
    /// Kind 9: a barrier.
    Bar,
}

/// All kinds in the order of their bytes 1 to 9.
pub const KINDS: [Kind; 9] = [
    Kind::Load,
    Kind::Store,
    Kind::Assign,
    Kind::Assume,
    Kind::Read,
    Kind::Write,
    Kind::PopA,
    Kind::PopB,
    Kind::Bar,
];

impl Kind {
    /// The kind with this byte, if there is one.
    pub fn from_byte(byte: u8) -> Option<Kind> {
        KINDS.into_iter().find(|kind| kind.byte() == byte)
    }

    /// The kind's byte.
    pub fn byte(self) -> u8 {
        match self {
            Kind::Load => 1,
            Kind::Store => 2,
            Kind::Assign => 3,
            Kind::Assume => 4,
            Kind::Read => 5,
            Kind::Write => 6,
            Kind::PopA => 7,
            Kind::PopB => 8,
            Kind::Bar => 9,
        }
    }

    /// The kind's word in the listing.
    pub fn word(self) -> &'static str {
        match self {
            Kind::Load => "load",
            Kind::Store => "store",
            Kind::Assign => "assign",
            Kind::Assume => "assume",
            Kind::Read => "read",
            Kind::Write => "write",
            Kind::PopA => "popa",
            Kind::PopB => "popb",
            Kind::Bar => "bar",
        }
    }

    /// The map a transition of this kind must have; none for the pops, which are no commands.
    pub fn transition_map(self) -> Option<u8> {
        match self {
            Kind::Load | Kind::Assign => Some(3),
            Kind::Store => Some(6),
            Kind::Assume => Some(2),
            Kind::Read | Kind::Write => Some(30),
            Kind::PopA | Kind::PopB => None,
            Kind::Bar => Some(0),
        }
    }

    /// Whether this is a popa or popb.
    pub fn is_pop(self) -> bool {
        matches!(self, Kind::PopA | Kind::PopB)
    }

    /// Whether this is a remote read or write.
    pub fn is_transfer(self) -> bool {
        matches!(self, Kind::Read | Kind::Write)
    }
}

/// One transition of the program code.
#[derive(Debug, Clone, PartialEq, Eq)]
pub struct Transition {
    /// The command's kind.
    pub kind: Kind,
    /// The state it is taken from.
    pub from: usize,
    /// The state it leads to.
    pub to: usize,
    /// The register of map bit 0, if it stands.
    pub register: Option<usize>,
    /// The expressions of map bits 1 to 4 that stand; every map with expressions begins with e1.
    pub expressions: Vec<Expression>,
}

/// A readable program.
#[derive(Debug, Clone, PartialEq, Eq)]
pub struct Program {
    /// N.
    pub ranks: usize,
    /// A, the cells of each rank.
    pub cells: usize,
    /// R, the registers of each rank.
    pub registers: usize,
    /// Q, the queues of each rank.
    pub queues: usize,
    /// S, the number of control states.
    pub states: usize,
    /// The T transitions.
    pub transitions: Vec<Transition>,
}

impl Program {
    /// Reads the program bytes whole, front to back.
    pub fn read(bytes: &[u8]) -> Outcome<Program> {
        let mut reader = ByteReader::new(bytes, number::PROGRAM_LENGTH);
        let ranks = reader.byte_within(1..=MAX_RANKS, number::PROGRAM_RANGE)?;
        let cells = reader.byte_within(1..=MAX_CELLS, number::PROGRAM_RANGE)?;
        let registers = reader.byte_within(1..=MAX_REGISTERS, number::PROGRAM_RANGE)?;
        let queues = reader.byte_within(1..=MAX_QUEUES, number::PROGRAM_RANGE)?;
        let states = reader.byte_within(1..=MAX_STATES, number::PROGRAM_RANGE)?;
        let count = read_count(&mut reader)?;
        let mut transitions = Vec::new();
        for _ in 0..count {
            transitions.push(read_transition(&mut reader, states, registers)?);
        }
        reader.finish()?;
        Ok(Program {
            ranks,
            cells,
            registers,
            queues,
            states,
            transitions,
        })
    }

    /// The bytes before the transitions.
    pub fn header(&self) -> Vec<u8> {
        let numbers = [
            self.ranks,
            self.cells,
            self.registers,
            self.queues,
            self.states,
        ];
        let mut out: Vec<u8> = numbers.iter().map(|&number| number as u8).collect();
        out.extend(count_bytes(self.transitions.len()));
        out
    }

    /// The program as it was before #102: its sums, differences and products are modulo 65,536. Its
    /// bytes are the same.
    pub fn dated(mut self) -> Program {
        for transition in &mut self.transitions {
            let expressions = std::mem::take(&mut transition.expressions).into_iter();
            transition.expressions = expressions.map(Expression::dated).collect();
        }
        self
    }

    /// The program's bytes.
    pub fn to_bytes(&self) -> Vec<u8> {
        let mut out = self.header();
        for transition in &self.transitions {
            transition.write(&mut out);
        }
        out
    }
}

/// The bytes of the number of transitions: each number has one form.
pub fn count_bytes(count: usize) -> Vec<u8> {
    if count <= MAX_SHORT_COUNT {
        vec![count as u8]
    } else {
        long_count_bytes(count as u16)
    }
}

/// The count byte that says that a two-byte count follows, and this as that count.
pub fn long_count_bytes(count: u16) -> Vec<u8> {
    let [high, low] = count.to_be_bytes();
    vec![LONG_COUNT, high, low]
}

impl Transition {
    /// Appends the transition's bytes.
    pub fn write(&self, out: &mut Vec<u8>) {
        let map = self.kind.transition_map().unwrap_or(0);
        out.extend([map, self.kind.byte(), self.from as u8, self.to as u8]);
        out.extend(self.register.map(|register| register as u8));
        for expression in &self.expressions {
            expression.write(out);
        }
    }
}

/// Reads the number of transitions: the count byte says it, or says that a two-byte count follows,
/// which is a field of its own and above what the byte can say.
fn read_count(reader: &mut ByteReader) -> Outcome<usize> {
    let place = reader.place();
    let byte = reader.byte()?;
    if byte == LONG_COUNT {
        let long_counts = MAX_SHORT_COUNT + 1..=MAX_TRANSITIONS;
        return reader.word_within(long_counts, number::PROGRAM_RANGE);
    }
    let short_counts = 0..=MAX_SHORT_COUNT;
    within(byte.into(), short_counts, number::PROGRAM_RANGE, place)
}

/// Reads one transition: map and kind, both before either is judged, then its fields.
pub fn read_transition(
    reader: &mut ByteReader,
    states: usize,
    registers: usize,
) -> Outcome<Transition> {
    let map_place = reader.place();
    let map = reader.byte()?;
    let kind_place = reader.place();
    let kind_byte = reader.byte()?;
    let known = Kind::from_byte(kind_byte).and_then(|kind| Some((kind, kind.transition_map()?)));
    let Some((kind, right_map)) = known else {
        return refuse(number::PROGRAM_FORM, kind_place);
    };
    if map != right_map {
        return refuse(number::PROGRAM_FORM, map_place);
    }
    let from = reader.byte_within(below(states), number::PROGRAM_RANGE)?;
    let to = reader.byte_within(below(states), number::PROGRAM_RANGE)?;
    let mut register = None;
    if map & 1 != 0 {
        register = Some(reader.byte_within(below(registers), number::PROGRAM_RANGE)?);
    }
    let mut expressions = Vec::new();
    for bit in 1..=4 {
        if map & (1 << bit) != 0 {
            expressions.push(Expression::read(reader, registers)?);
        }
    }
    Ok(Transition {
        kind,
        from,
        to,
        register,
        expressions,
    })
}
