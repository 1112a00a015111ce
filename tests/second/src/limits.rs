//! The limits of document 01 and of document 02's #105 and #107, and what a refusal is; #102, #103
//! and #108 move no limit.

/// The largest N; ranks run from 1 to N.
pub const MAX_RANKS: usize = 16;
/// The largest N whose slips have a map of one byte; before #105 it was the largest N.
pub const MAX_SHORT_MAP_RANKS: usize = 8;
/// The largest number of cells a rank may have.
pub const MAX_CELLS: usize = 64;
/// The largest number of registers a rank may have.
pub const MAX_REGISTERS: usize = 16;
/// The largest number of queues a rank may have.
pub const MAX_QUEUES: usize = 4;
/// The largest number of control states.
pub const MAX_STATES: usize = 64;
/// The largest number of transitions.
pub const MAX_TRANSITIONS: usize = 400;
/// The largest number of transitions that the header's count byte says by itself.
pub const MAX_SHORT_COUNT: usize = 128;
/// The count byte that says that a two-byte count follows.
pub const LONG_COUNT: u8 = 255;
/// The largest number of tokens in one expression.
pub const MAX_TOKENS: usize = 15;
/// The largest number of items in a record, and the largest count in a slip.
pub const MAX_ITEMS: usize = 1024;

/// The numbers of document 01's table of refusals, and of #102 and #103, by name.
pub mod number {
    /// The program ends early or has bytes left over.
    pub const PROGRAM_LENGTH: u8 = 1;
    /// A header number, state or register is outside its range.
    pub const PROGRAM_RANGE: u8 = 2;
    /// An unknown kind, a map not the kind's, an unknown or a sixteenth token.
    pub const PROGRAM_FORM: u8 = 3;
    /// The record ends early or has bytes left over.
    pub const RECORD_LENGTH: u8 = 4;
    /// The item count, or an item's rank, transition, queue, place or remote rank, is outside its
    /// range.
    pub const RECORD_RANGE: u8 = 5;
    /// An item's unknown kind, or a map not among its kind's.
    pub const RECORD_FORM: u8 = 6;
    /// The transition is not from the rank's state, or is of another kind.
    pub const TRANSITION: u8 = 7;
    /// An evaluated cell, rank or queue is outside its range.
    pub const EVALUATED: u8 = 8;
    /// An assume gives 0.
    pub const ASSUME: u8 = 9;
    /// A pop of an empty queue, or one that names a remote rank for which no entry waits.
    pub const EMPTY_POP: u8 = 10;
    /// A place or given value differs from the replay.
    pub const DIFFERS: u8 = 11;
    /// A barrier row is not kept.
    pub const BARRIER: u8 = 12;
    /// Requests or deliveries are left at the end.
    pub const LEFT: u8 = 13;
    /// The order list is shorter than the group count.
    pub const ORDER_SHORT: u8 = 14;
    /// The cell list, slip, counts, listing or start memory is too short.
    pub const MEMORY_SHORT: u8 = 15;
    /// A slip is not as document 01 says.
    pub const SLIP: u8 = 16;
    /// An expression has no value; 17 is not used here.
    pub const NO_VALUE: u8 = 18;
    /// Start bytes are not as #103 says.
    pub const START: u8 = 19;

    /// All numbers there are.
    pub const ALL: [u8; 18] = [
        1, 2, 3, 4, 5, 6, 7, 8, 9, 10, 11, 12, 13, 14, 15, 16, NO_VALUE, START,
    ];
}

/// A refusal holds its number and its place, as the table of document 01, #102 and #103
/// give them.
#[derive(Debug, Clone, Copy, PartialEq, Eq)]
pub struct Refusal {
    /// The number: 1 to 16, 18 or 19.
    pub number: u8,
    /// A byte, an item, an item count, or the entries or bytes needed.
    pub place: usize,
}

/// What every part of the check returns: a result or a refusal.
pub type Outcome<T> = Result<T, Refusal>;

/// Makes the refusal with this number and place, as an early return.
pub fn refuse<T>(number: u8, place: usize) -> Outcome<T> {
    Err(Refusal { number, place })
}
