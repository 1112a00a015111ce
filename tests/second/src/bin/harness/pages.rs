//! Lending the areas of a call at the ends of pages that are followed by memory without access, so
//! that the hardware catches a byte read or written past an end. A caught access ends the harness
//! with a report of the call. The system's constants and layouts are those of Linux on 64-bit
//! machines.

use super::{answer, Area, Call, Function, NO_VALUE, UNDER_WAY};
use second::extras::{Seen, Told};
use second::generator::Input;
use second::harness::{lent, Observed, GUARD};
use std::ffi::c_void;
use std::fmt::{self, Write};
use std::io::Error;
use std::ptr;
use std::slice;
use std::sync::atomic::Ordering::SeqCst;

#[cfg(not(all(target_os = "linux", target_pointer_width = "64")))]
compile_error!("the constants and layouts in pages.rs are those of Linux on 64-bit machines");

extern "C" {
    /// Maps memory.
    fn mmap(at: *mut u8, length: usize, access: i32, kind: i32, file: i32, offset: i64) -> *mut u8;
    /// Gives mapped memory back.
    fn munmap(at: *mut u8, length: usize) -> i32;
    /// Changes what may be done with mapped memory.
    fn mprotect(at: *mut u8, length: usize, access: i32) -> i32;
    /// Changes what happens on a signal.
    fn sigaction(signal: i32, action: *const Action, before: *mut Action) -> i32;
    /// Writes to an open file, without a buffer.
    fn write(file: i32, bytes: *const u8, length: usize) -> isize;
    /// Ends the process at once.
    fn _exit(status: i32) -> !;
}

/// Memory that may not be touched.
const NO_ACCESS: i32 = 0;
/// Memory that may be read.
const READ: i32 = 1;
/// Memory that may be read and written.
const READ_AND_WRITE: i32 = 1 | 2;
/// Memory of this process alone, with no file behind it.
const PRIVATE_ANONYMOUS: i32 = 0x02 | 0x20;
/// Regions and the memory without access around them are multiples of this, as it is of a page.
const STEP: usize = 65_536;

/// The signal of an access that the hardware caught.
const FAULT: i32 = 11;
/// The handler is told the address, has a stack of its own, and is taken away once it runs.
const TOLD_ASIDE_ONCE: u32 = 0x4 | 0x0800_0000 | 0x8000_0000;

/// What to do on a signal, as the system's library lays it out.
#[repr(C)]
struct Action {
    /// What is called.
    handler: extern "C" fn(i32, *const Signalled, *mut c_void),
    /// The signals held back meanwhile.
    held_back: [u64; 16],
    /// How it is called.
    flags: u32,
    /// Filled in by the system's library.
    restorer: usize,
}

/// The beginning of what a handler is told.
#[repr(C)]
struct Signalled {
    /// The signal, an error number, and a code.
    head: [i32; 3],
    /// The address that was touched.
    address: usize,
}

/// Memory between two stretches without access; what is lent lies at its end.
struct Region {
    /// The first byte.
    start: *mut u8,
    /// The bytes, a multiple of `STEP`.
    length: usize,
    /// Whether the next empty area is lent as null.
    null_next: bool,
}

impl Region {
    /// A region of at least so many bytes.
    fn new(at_least: usize) -> Region {
        let length = at_least.next_multiple_of(STEP);
        // A fresh mapping, of which nobody knows yet.
        let before = unsafe {
            let kind = PRIVATE_ANONYMOUS;
            mmap(ptr::null_mut(), length + 2 * STEP, NO_ACCESS, kind, -1, 0)
        };
        if before.addr() == usize::MAX {
            panic!("no memory can be mapped: {}", Error::last_os_error());
        }
        let region = Region {
            start: before.wrapping_add(STEP),
            length,
            null_next: false,
        };
        region.protect(READ_AND_WRITE);
        region
    }

    /// Changes what may be done with the region's bytes.
    fn protect(&self, access: i32) {
        // The mapping is the region's own, and `&self` shows that no slice of it is alive.
        if unsafe { mprotect(self.start, self.length, access) } != 0 {
            panic!("memory cannot be protected: {}", Error::last_os_error());
        }
    }

    /// The region's last bytes, so many of them; a region too small is replaced before.
    fn end(&mut self, length: usize) -> &mut [u8] {
        if length > self.length {
            *self = Region::new(length);
        }
        // The bytes lie in the region, which may be read and written but during a call.
        unsafe { slice::from_raw_parts_mut(self.start.add(self.length - length), length) }
    }

    /// Lends the region's last bytes, so many of them; of none, every other time as null.
    fn lend(&mut self, length: usize) -> Area {
        let mut start = self.end(length).as_mut_ptr();
        if length == 0 {
            if self.null_next {
                start = ptr::null_mut();
            }
            self.null_next = !self.null_next;
        }
        Area { start, length }
    }
}

impl Drop for Region {
    fn drop(&mut self) {
        // The whole mapping, stretches without access included; nothing of it is lent any more.
        unsafe { munmap(self.start.wrapping_sub(STEP), self.length + 2 * STEP) };
    }
}

/// A list that a function fills, without the guard after it, which is out of reach.
struct Reached<'a> {
    /// The guard before the list, and the list.
    bytes: &'a mut [u8],
    /// The bytes of the list alone.
    length: usize,
}

impl Reached<'_> {
    /// What stands for a list that a function does not have.
    fn none() -> Reached<'static> {
        Reached {
            bytes: &mut [],
            length: 0,
        }
    }

    /// What is there of a list of bytes in its guards.
    fn of(list: &mut [u8]) -> Reached<'_> {
        let end = list.len() - GUARD;
        Reached {
            bytes: &mut list[..end],
            length: end - GUARD,
        }
    }
}

/// The regions that lent areas lie in. Each function is lent some of its own, so that each area of
/// each function is lent as null every other time that it is empty.
pub struct Pages {
    /// Those of the areas that are only read.
    read: [Region; 3],
    /// Those of the areas that are filled.
    filled: [Region; 2],
    /// The one of `value`.
    value: Region,
}

impl Pages {
    /// Regions for calls to come, and the handler that reports an access outside them.
    pub fn new() -> Pages {
        let action = Action {
            handler: report,
            held_back: [0; 16],
            flags: TOLD_ASIDE_ONCE,
            restorer: 0,
        };
        // The handler only reads the call under way, writes, and ends the process.
        if unsafe { sigaction(FAULT, &action, ptr::null_mut()) } != 0 {
            panic!("no handler can be set: {}", Error::last_os_error());
        }
        Pages {
            read: [(); 3].map(|()| Region::new(STEP)),
            filled: [(); 2].map(|()| Region::new(STEP)),
            value: Region::new(STEP),
        }
    }

    /// Lends all areas at the ends of pages, calls the function, and copies back what it filled,
    /// with the guards before it.
    fn call(&mut self, function: Function, read: [&[u8]; 3], filled: [Reached; 2]) -> Told {
        let [one, two, three] = &mut self.read;
        let [list, cells] = &mut self.filled;
        for (region, bytes) in [
            (&mut *one, read[0]),
            (&mut *two, read[1]),
            (&mut *three, read[2]),
            (&mut *list, &*filled[0].bytes),
            (&mut *cells, &*filled[1].bytes),
            (&mut self.value, &NO_VALUE.to_ne_bytes()),
        ] {
            region.end(bytes.len()).copy_from_slice(bytes);
        }
        let call = Call {
            function,
            read: [
                one.lend(read[0].len()),
                two.lend(read[1].len()),
                three.lend(read[2].len()),
            ],
            filled: [list.lend(filled[0].length), cells.lend(filled[1].length)],
            value: self.value.lend(size_of::<usize>()).start.cast(),
        };
        self.read.iter().for_each(|region| region.protect(READ));
        // Each area lies at the end of a region of its own; `value` and a list of counts are
        // aligned as that end is, since their lengths are whole entries.
        let told = unsafe { call.told() };
        self.read
            .iter()
            .for_each(|region| region.protect(READ_AND_WRITE));
        for (region, Reached { bytes, .. }) in self.filled.iter_mut().zip(filled) {
            bytes.copy_from_slice(region.end(bytes.len()));
        }
        told
    }

    /// Has the first program check an input, and notes what it does.
    pub fn check(&mut self, input: &Input) -> Observed {
        let mut order = lent(input.order_bytes);
        let mut cells = lent(input.cell_bytes);
        let read = [&input.program[..], &input.start, &input.record];
        let filled = [Reached::of(&mut order), Reached::of(&mut cells)];
        let answer = answer(self.call(Function::Check, read, filled));
        Observed {
            answer,
            order,
            cells,
        }
    }

    /// Has a function fill one list of so many bytes, and notes what it does.
    fn fill(&mut self, function: Function, read: [&[u8]; 3], bytes: usize) -> Seen<u8> {
        let mut memory = lent(bytes);
        let filled = [Reached::of(&mut memory), Reached::none()];
        let told = self.call(function, read, filled);
        Seen { told, memory }
    }

    /// Has the first program write a slip, and notes what it does.
    pub fn write_slip(&mut self, inputs: [&[u8]; 3], bytes: usize) -> Seen<u8> {
        self.fill(Function::WriteSlip, inputs, bytes)
    }

    /// Has the first program write a listing, and notes what it does.
    pub fn list(&mut self, inputs: [&[u8]; 3], bytes: usize) -> Seen<u8> {
        self.fill(Function::List, inputs, bytes)
    }

    /// Has the first program write start bytes, and notes what it does.
    pub fn write_start(&mut self, program: &[u8], cells: &[u8], bytes: usize) -> Seen<u8> {
        self.fill(Function::WriteStart, [program, cells, &[]], bytes)
    }

    /// Has the first program read start bytes, and notes what it does.
    pub fn read_start(&mut self, program: &[u8], start: &[u8], bytes: usize) -> Seen<u8> {
        self.fill(Function::ReadStart, [program, start, &[]], bytes)
    }

    /// Has the first program read a slip, and notes what it does.
    pub fn read_slip(&mut self, ranks: usize, slip: &[u8], entries: usize) -> Seen<u16> {
        let mut memory = lent::<u16>(entries);
        let reached = &mut memory[..GUARD + entries];
        let mut bytes: Vec<u8> = reached
            .iter()
            .flat_map(|entry| entry.to_ne_bytes())
            .collect();
        let counts = Reached {
            bytes: &mut bytes,
            length: entries * size_of::<u16>(),
        };
        let filled = [counts, Reached::none()];
        let told = self.call(Function::read_slip(ranks), [slip, &[], &[]], filled);
        for (entry, bytes) in reached.iter_mut().zip(bytes.chunks_exact(2)) {
            *entry = u16::from_ne_bytes([bytes[0], bytes[1]]);
        }
        Seen { told, memory }
    }
}

/// Standard output without a buffer, for the handler, which must not ask for memory.
struct Unbuffered;

impl Write for Unbuffered {
    fn write_str(&mut self, text: &str) -> fmt::Result {
        // The text's own bytes; if they cannot be written there is nobody to tell.
        unsafe { write(1, text.as_ptr(), text.len()) };
        Ok(())
    }
}

/// Reports a caught access of the call under way, and ends with status 1. Outside a call it
/// returns, and since it was taken away when it began, the same access ends the process.
extern "C" fn report(_signal: i32, signalled: *const Signalled, _context: *mut c_void) {
    let call = UNDER_WAY.load(SeqCst);
    if call.is_null() {
        return;
    }
    // The call is under way, so it and what is lent to it are there; `signalled` comes from the
    // system.
    unsafe {
        let _ = write_report(&*call, (*signalled).address);
        _exit(1);
    }
}

/// Writes which access was caught, in or near which area, and the input.
///
/// Safety: the areas that are only read may be read.
unsafe fn write_report(call: &Call, address: usize) -> fmt::Result {
    let out = &mut Unbuffered;
    let function = call.function.name();
    writeln!(out, "{function} touched what it may not, at {address:#x}")?;
    let value = Area {
        start: call.value.cast(),
        length: size_of::<usize>(),
    };
    let read = call.function.read_names().into_iter().zip(call.read);
    let filled = call.function.filled_names().into_iter().zip(call.filled);
    let (read, filled) = (named(read), named(filled));
    let areas = read.clone().chain(filled.clone());
    for (name, Area { start, length }) in areas.chain([("value", value)]) {
        let at = address.wrapping_sub(start.addr()) as isize;
        if at.unsigned_abs() < length + STEP {
            writeln!(out, "that is byte {at} of the {name}, which has {length}")?;
        }
    }
    if let Function::ReadSlip(ranks) = call.function {
        writeln!(out, "ranks {ranks}")?;
    }
    for (name, Area { start, length }) in read {
        let none = if length == 0 { "-" } else { "" };
        write!(out, "{name} {none}")?;
        for at in 0..length {
            write!(out, "{:02x}", start.add(at).read())?;
        }
        writeln!(out)?;
    }
    for (name, area) in filled {
        writeln!(out, "{name}: {} bytes lent", area.length)?;
    }
    Ok(())
}

/// The areas that a function has.
fn named(
    areas: impl Iterator<Item = (&'static str, Area)> + Clone,
) -> impl Iterator<Item = (&'static str, Area)> + Clone {
    areas.filter(|(name, _)| !name.is_empty())
}
