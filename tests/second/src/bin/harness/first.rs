//! The one place where the first program's C functions are called, and with `pages.rs` beside it the
//! one place with `unsafe`.
//!
//! They are `lellmusu_check`, `lellmusu_write_slip`, `lellmusu_read_slip`, `lellmusu_list`,
//! `lellmusu_write_start` and `lellmusu_read_start` of `include/lellmusu.h`. They are lent the areas
//! of a call in one of two ways: as slices, which the harness puts between guards (`check` and
//! `FUNCTIONS`), or at the ends of pages (`Pages`).

mod pages;

pub use pages::Pages;
use second::check::Answer;
use second::extras::{Functions, Told, DONE, RING};
use second::limits::Refusal;
use std::ptr;
use std::sync::atomic::{AtomicPtr, Ordering::SeqCst};

#[link(name = "lellmusu", kind = "static")]
extern "C" {
    /// The whole check: 0 for an order, 255 for a ring, else the refusal's number; `value` gets the
    /// count of groups or the refusal's place.
    fn lellmusu_check(
        program: *const u8,
        program_length: usize,
        start: *const u8,
        start_length: usize,
        record: *const u8,
        record_length: usize,
        order: *mut u8,
        order_length: usize,
        cells: *mut u8,
        cells_length: usize,
        value: *mut usize,
    ) -> u8;

    /// The slip writer: 0, and `value` gets the bytes written; else the refusal's number, and
    /// `value` gets its place.
    fn lellmusu_write_slip(
        program: *const u8,
        program_length: usize,
        start: *const u8,
        start_length: usize,
        record: *const u8,
        record_length: usize,
        slip: *mut u8,
        slip_length: usize,
        value: *mut usize,
    ) -> u8;

    /// The slip reader: 0, and `value` gets the counts filled; else the refusal's number, and
    /// `value` gets its place. The length of the list of counts is in entries.
    fn lellmusu_read_slip(
        ranks: u8,
        slip: *const u8,
        slip_length: usize,
        counts: *mut u16,
        counts_length: usize,
        value: *mut usize,
    ) -> u8;

    /// The listing: 0 for an order, 255 for a ring, else the refusal's number; `value` gets the
    /// bytes written, and with 15 the bytes needed.
    fn lellmusu_list(
        program: *const u8,
        program_length: usize,
        start: *const u8,
        start_length: usize,
        record: *const u8,
        record_length: usize,
        text: *mut u8,
        text_length: usize,
        value: *mut usize,
    ) -> u8;

    /// The writer of start bytes: 0, and `value` gets the bytes written; else the refusal's number,
    /// and `value` gets its place. The cell list has two bytes an entry, and its length is in bytes.
    fn lellmusu_write_start(
        program: *const u8,
        program_length: usize,
        cells: *const u8,
        cells_length: usize,
        start: *mut u8,
        start_length: usize,
        value: *mut usize,
    ) -> u8;

    /// The reader of start bytes: 0, and `value` gets the entries filled; else the refusal's number,
    /// and `value` gets its place. The cell list is as above.
    fn lellmusu_read_start(
        program: *const u8,
        program_length: usize,
        start: *const u8,
        start_length: usize,
        cells: *mut u8,
        cells_length: usize,
        value: *mut usize,
    ) -> u8;
}

/// What stands in `value` before a call: no count and no place of a record.
const NO_VALUE: usize = usize::MAX;

/// A lent area.
#[derive(Clone, Copy)]
struct Area {
    /// Its first byte, or null.
    start: *mut u8,
    /// Its bytes.
    length: usize,
}

impl Area {
    /// What stands for an area that a function does not have.
    const NONE: Area = Area {
        start: ptr::null_mut(),
        length: 0,
    };

    /// A slice that is only read.
    fn read(bytes: &[u8]) -> Area {
        Area {
            start: bytes.as_ptr().cast_mut(),
            length: bytes.len(),
        }
    }

    /// A slice that is filled.
    fn filled<E>(entries: &mut [E]) -> Area {
        Area {
            start: entries.as_mut_ptr().cast(),
            length: size_of_val(entries),
        }
    }
}

/// A function of the first program.
#[derive(Clone, Copy)]
enum Function {
    /// The whole check.
    Check,
    /// The slip writer.
    WriteSlip,
    /// The slip reader for this N.
    ReadSlip(u8),
    /// The listing.
    List,
    /// The writer of start bytes.
    WriteStart,
    /// The reader of start bytes.
    ReadStart,
}

impl Function {
    /// The slip reader for an N; the harness asks it only of what a byte holds.
    fn read_slip(ranks: usize) -> Function {
        Function::ReadSlip(u8::try_from(ranks).expect("N is taken as one byte"))
    }

    /// Its name.
    fn name(self) -> &'static str {
        match self {
            Function::Check => "lellmusu_check",
            Function::WriteSlip => "lellmusu_write_slip",
            Function::ReadSlip(_) => "lellmusu_read_slip",
            Function::List => "lellmusu_list",
            Function::WriteStart => "lellmusu_write_start",
            Function::ReadStart => "lellmusu_read_start",
        }
    }

    /// What it reads; an area that it does not have has no name.
    fn read_names(self) -> [&'static str; 3] {
        match self {
            Function::Check | Function::WriteSlip | Function::List => {
                ["program", "start", "record"]
            }
            Function::ReadSlip(_) => ["slip", "", ""],
            Function::WriteStart => ["program", "cell list", ""],
            Function::ReadStart => ["program", "start", ""],
        }
    }

    /// What it fills; likewise.
    fn filled_names(self) -> [&'static str; 2] {
        match self {
            Function::Check => ["order list", "cell list"],
            Function::WriteSlip => ["slip", ""],
            Function::ReadSlip(_) => ["list of counts", ""],
            Function::List => ["text", ""],
            Function::WriteStart => ["start", ""],
            Function::ReadStart => ["cell list", ""],
        }
    }
}

/// One call of a function.
struct Call {
    /// The function.
    function: Function,
    /// The areas that are only read.
    read: [Area; 3],
    /// The areas that are filled.
    filled: [Area; 2],
    /// Where the count, length or place goes.
    value: *mut usize,
}

/// The call under way, for the handler; null while there is none.
static UNDER_WAY: AtomicPtr<Call> = AtomicPtr::new(ptr::null_mut());

impl Call {
    /// Calls the function.
    ///
    /// Safety: the areas and `value` are memory that may be touched as the header says, until the
    /// call ends, or touching it is caught; and a list of counts is aligned.
    unsafe fn told(&self) -> Told {
        UNDER_WAY.store(ptr::from_ref(self).cast_mut(), SeqCst);
        let number = self.number();
        UNDER_WAY.store(ptr::null_mut(), SeqCst);
        let value = self.value.read();
        Told { number, value }
    }

    /// Calls the function and gives the number that it returns.
    ///
    /// Safety: as above.
    unsafe fn number(&self) -> u8 {
        let Call {
            read: [one, two, three],
            filled: [list, cells],
            value,
            ..
        } = *self;
        match self.function {
            Function::Check => lellmusu_check(
                one.start,
                one.length,
                two.start,
                two.length,
                three.start,
                three.length,
                list.start,
                list.length,
                cells.start,
                cells.length,
                value,
            ),
            Function::ReadSlip(ranks) => {
                let counts = list.start.cast::<u16>();
                let entries = list.length / size_of::<u16>();
                lellmusu_read_slip(ranks, one.start, one.length, counts, entries, value)
            }
            Function::WriteSlip => self.of_a_run(lellmusu_write_slip),
            Function::List => self.of_a_run(lellmusu_list),
            Function::WriteStart => self.of_a_start(lellmusu_write_start),
            Function::ReadStart => self.of_a_start(lellmusu_read_start),
        }
    }

    /// Calls a function that reads program, start and record, and fills one area.
    ///
    /// Safety: as above.
    unsafe fn of_a_run(&self, function: OfRun) -> u8 {
        let [one, two, three] = self.read;
        let [list, _] = self.filled;
        function(
            one.start,
            one.length,
            two.start,
            two.length,
            three.start,
            three.length,
            list.start,
            list.length,
            self.value,
        )
    }

    /// Calls a function of start bytes, which reads two areas and fills one.
    ///
    /// Safety: as above.
    unsafe fn of_a_start(&self, function: OfStart) -> u8 {
        let [one, two, _] = self.read;
        let [list, _] = self.filled;
        function(
            one.start,
            one.length,
            two.start,
            two.length,
            list.start,
            list.length,
            self.value,
        )
    }
}

/// The slip writer or the listing.
type OfRun = unsafe extern "C" fn(
    *const u8,
    usize,
    *const u8,
    usize,
    *const u8,
    usize,
    *mut u8,
    usize,
    *mut usize,
) -> u8;

/// The writer or the reader of start bytes.
type OfStart =
    unsafe extern "C" fn(*const u8, usize, *const u8, usize, *mut u8, usize, *mut usize) -> u8;

/// What the check told as an answer. A number that stands for no answer of the check becomes a
/// refusal with that number, which is right on no input.
fn answer(told: Told) -> Answer {
    match told {
        Told {
            number: DONE,
            value,
        } => Answer::Order(value),
        Told {
            number: RING,
            value,
        } => Answer::Ring(value),
        Told {
            number,
            value: place,
        } => Answer::Refused(Refusal { number, place }),
    }
}

/// Calls a function on slices.
fn on_slices(function: Function, read: [&[u8]; 3], filled: [Area; 2]) -> Told {
    let mut value = NO_VALUE;
    let call = Call {
        function,
        read: read.map(Area::read),
        filled,
        value: &mut value,
    };
    // Each area is a slice of its own, lent for the call, and of the function's own entries.
    unsafe { call.told() }
}

/// The first program's whole check on slices.
pub fn check(
    program: &[u8],
    start: &[u8],
    record: &[u8],
    order: &mut [u8],
    cells: &mut [u8],
) -> Answer {
    let filled = [Area::filled(order), Area::filled(cells)];
    answer(on_slices(Function::Check, [program, start, record], filled))
}

/// A function that fills one slice.
fn filling<E>(function: Function, read: [&[u8]; 3], memory: &mut [E]) -> Told {
    on_slices(function, read, [Area::filled(memory), Area::NONE])
}

/// The first program's functions beside the check on slices.
pub const FUNCTIONS: Functions<'static> = Functions {
    write_slip: &|program, start, record, slip| {
        filling(Function::WriteSlip, [program, start, record], slip)
    },
    read_slip: &|ranks, slip, counts| filling(Function::read_slip(ranks), [slip, &[], &[]], counts),
    list: &|program, start, record, text| filling(Function::List, [program, start, record], text),
    write_start: &|program, cells, start| {
        filling(Function::WriteStart, [program, cells, &[]], start)
    },
    read_start: &|program, start, cells| filling(Function::ReadStart, [program, start, &[]], cells),
};
