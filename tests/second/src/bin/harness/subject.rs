//! The subject the harness tests: the first program if it is linked, else the second one itself.

#[cfg(feature = "first")]
#[path = "first.rs"]
#[allow(unsafe_code)]
mod first;

use second::extras::Extras;
use second::generator::Input;
use second::harness::{between_guards, Observed, Subject};

/// A subject, with the way its lists are lent.
pub struct Tested {
    /// What the harness's output calls it.
    pub name: &'static str,
    /// Lends it lists, calls its check on an input, and notes what it does.
    pub observe: Box<dyn Fn(&Input) -> Observed>,
    /// Its functions beside the check.
    pub extras: Extras<'static>,
}

impl Tested {
    /// The subject as it is tested unless something else is asked for.
    #[cfg(feature = "first")]
    pub fn usual() -> Tested {
        let pages = || std::cell::RefCell::new(first::Pages::new());
        let (check, write_slip, read_slip, list) = (pages(), pages(), pages(), pages());
        let (write_start, read_start) = (pages(), pages());
        Tested {
            name: "the first program, lent the ends of pages",
            observe: Box::new(move |input| check.borrow_mut().check(input)),
            extras: Extras {
                write_slip: Box::new(move |program, start, record, bytes| {
                    let inputs = [program, start, record];
                    write_slip.borrow_mut().write_slip(inputs, bytes)
                }),
                read_slip: Box::new(move |ranks, slip, entries| {
                    read_slip.borrow_mut().read_slip(ranks, slip, entries)
                }),
                list: Box::new(move |program, start, record, bytes| {
                    list.borrow_mut().list([program, start, record], bytes)
                }),
                write_start: Box::new(move |program, cells, bytes| {
                    write_start.borrow_mut().write_start(program, cells, bytes)
                }),
                read_start: Box::new(move |program, start, bytes| {
                    read_start.borrow_mut().read_start(program, start, bytes)
                }),
            },
        }
    }

    /// The subject with its lists between guard bytes.
    #[cfg(feature = "first")]
    pub fn between_guards() -> Tested {
        Tested::lent_slices(
            "the first program, lent lists in guard bytes",
            &first::check,
            Extras::between_guards(first::FUNCTIONS),
        )
    }

    /// The subject as it is tested unless something else is asked for.
    #[cfg(not(feature = "first"))]
    pub fn usual() -> Tested {
        Tested::lent_slices(
            "the second program alone",
            &second::check::check_bytes,
            Extras::second(),
        )
    }

    /// The subject with its lists between guard bytes: safe code is lent nothing else anyway.
    #[cfg(not(feature = "first"))]
    pub fn between_guards() -> Tested {
        Tested::usual()
    }

    /// A subject that is lent slices between guard bytes.
    fn lent_slices(
        name: &'static str,
        subject: Subject<'static>,
        extras: Extras<'static>,
    ) -> Tested {
        Tested {
            name,
            observe: Box::new(between_guards(subject)),
            extras,
        }
    }
}
