//! What is stated of each case: the definition's whole result on the case's input, lent memory included.

use second::corpus::{Case, CheckCase, Expected, SlipCase, StartReadCase, StartWriteCase};
use second::limits::{number, Refusal};

/// That a definition, applied to arguments, gives a result.
pub struct Theorem {
    /// The definition's name.
    pub definition: &'static str,
    /// Its arguments, in antt.
    pub arguments: String,
    /// Its result, in antt.
    pub result: String,
}

/// Lent memory: its length, and what its first entries hold at the end. All others hold 9 throughout.
struct Lent {
    length: usize,
    written: Vec<u16>,
}

impl Lent {
    /// Memory that stays as it was.
    fn untouched(length: usize) -> Lent {
        let written = vec![];
        Lent { length, written }
    }

    /// Memory for these bytes and one more.
    fn roomy(bytes: &[u8]) -> Lent {
        let written = bytes.iter().map(|byte| u16::from(*byte)).collect();
        Lent {
            length: bytes.len() + 1,
            written,
        }
    }

    /// What it holds before the call.
    fn before(&self) -> String {
        format!("(replicate {} 9)", self.length)
    }

    /// What it holds after the call.
    fn after(&self) -> String {
        format!(
            "({} ++ replicate {} 9)",
            list(&self.written),
            self.length - self.written.len()
        )
    }
}

/// A list in antt.
fn list<T: ToString>(numbers: &[T]) -> String {
    let mut text = String::from("(");
    for number in numbers {
        text += &number.to_string();
        text += " ∷ ";
    }
    text + "[])"
}

/// The refusal case of an answer.
fn refused(why: Refusal) -> String {
    format!(
        "Err (record {{ number = {}; place = {} }})",
        why.number, why.place
    )
}

/// 15 with the length needed.
fn too_short(needed: usize) -> Refusal {
    Refusal {
        number: number::MEMORY_SHORT,
        place: needed,
    }
}

/// Numbers as big-endian bytes, two each.
fn bytes_of(numbers: &[u16]) -> Vec<u16> {
    numbers
        .iter()
        .flat_map(|number| [number / 256, number % 256])
        .collect()
}

/// The input of a check case, as the first three arguments.
fn input(case: &CheckCase) -> String {
    let (program, start, record) = (&case.program, &case.start, &case.record);
    format!("{} {} {}", list(program), list(start), list(record))
}

/// The whole check on these two lists, by the definition for entries or by that for bytes.
fn outcome(definition: &'static str, case: &CheckCase, order: &Lent, cells: &Lent) -> Theorem {
    let answer = match &case.answer {
        Expected::Order(groups) => format!("Ok (Order {})", groups.len()),
        Expected::Ring(groups) => format!("Ok (Ring {})", groups.len()),
        Expected::Refused(why) => refused(*why),
    };
    Theorem {
        definition,
        arguments: format!("{} {} {}", input(case), order.before(), cells.before()),
        result: format!(
            "record {{ answer = {answer}; order = {}; cells = {} }}",
            order.after(),
            cells.after()
        ),
    }
}

/// The check on lists of entries, and on bytes: two an entry, with an odd one after either list. Where the run is accepted and the lengths
/// matter, each list is even once.
fn checked(case: &CheckCase) -> Vec<Theorem> {
    let groups = match &case.answer {
        Expected::Order(groups) | Expected::Ring(groups) => groups.clone(),
        Expected::Refused(_) => vec![],
    };
    let bytes = |entries: usize, written: &[u16], odd: usize| Lent {
        length: 2 * entries + odd,
        written: bytes_of(written),
    };
    let on_bytes = |order_odd: usize, cells_odd: usize| {
        let order = bytes(case.order_entries, &groups, order_odd);
        let cells = bytes(case.cell_entries, &case.cells, cells_odd);
        outcome("check_bytes", case, &order, &cells)
    };
    let order = Lent {
        length: case.order_entries,
        written: groups.clone(),
    };
    let cells = Lent {
        length: case.cell_entries,
        written: case.cells.clone(),
    };
    let mut all = vec![outcome("check", case, &order, &cells)];
    match case.slip {
        Some(_) => all.extend([on_bytes(1, 0), on_bytes(0, 1)]),
        None => all.push(on_bytes(1, 1)),
    }
    all
}

/// A slip or a start written or read: how many entries are filled, or the refusal.
fn filled(
    definition: &'static str,
    input: &str,
    answer: Result<usize, Refusal>,
    memory: &Lent,
) -> Theorem {
    let answer = match answer {
        Ok(entries) => format!("Ok {entries}"),
        Err(why) => refused(why),
    };
    Theorem {
        definition,
        arguments: format!("{input} {}", memory.before()),
        result: format!(
            "record {{ answer = {answer}; memory = {} }}",
            memory.after()
        ),
    }
}

/// The slip of a case in memory longer by a byte, and 15 in memory shorter by one; or the case's refusal.
fn slips_written(case: &CheckCase) -> Vec<Theorem> {
    let written = |answer, memory: &Lent| filled("write_slip", &input(case), answer, memory);
    match (&case.slip, &case.answer) {
        (Some(slip), _) => vec![
            written(Ok(slip.len()), &Lent::roomy(slip)),
            written(Err(too_short(slip.len())), &Lent::untouched(slip.len() - 1)),
        ],
        (None, Expected::Refused(why)) => vec![written(Err(*why), &Lent::untouched(1))],
        (None, _) => panic!("{}: accepted, and without a slip", case.name),
    }
}

/// What the listing answers, which is what its first line says.
fn told(case: &CheckCase) -> String {
    let words: Vec<&str> = case
        .listing
        .lines()
        .next()
        .unwrap_or("")
        .split(' ')
        .collect();
    match words[..] {
        ["order", count] => format!("Ok (Order {count})"),
        ["ring", count] => format!("Ok (Ring {count})"),
        ["refused", number, place] => {
            format!("Err (record {{ number = {number}; place = {place} }})")
        }
        _ => panic!("{}: a listing of another form", case.name),
    }
}

/// The listing in memory longer by a byte, and 15 in memory shorter by one.
fn listed(case: &CheckCase) -> Vec<Theorem> {
    let text = case.listing.as_bytes();
    let theorem = |answer: String, length: usize, memory: &Lent| Theorem {
        definition: "listing",
        arguments: format!("{} {}", input(case), memory.before()),
        result: format!(
            "record {{ result = record {{ answer = {answer}; length = {length} }}; memory = {} }}",
            memory.after()
        ),
    };
    vec![
        theorem(told(case), text.len(), &Lent::roomy(text)),
        theorem(
            refused(too_short(text.len())),
            0,
            &Lent::untouched(text.len() - 1),
        ),
    ]
}

/// A slip read.
fn slip_read(case: &SlipCase) -> Theorem {
    let written = case.answer.clone().unwrap_or_default();
    let memory = Lent {
        length: case.counts_entries,
        written,
    };
    let answer = case.answer.as_ref().map(Vec::len).map_err(|why| *why);
    filled(
        "read_slip",
        &format!("{} {}", case.ranks, list(&case.slip)),
        answer,
        &memory,
    )
}

/// A start written, from a list of entries and from one of bytes, with an odd one behind.
fn start_written(case: &StartWriteCase) -> Vec<Theorem> {
    let written = case.answer.clone().unwrap_or_default();
    let memory = Lent {
        length: case.start_bytes,
        written: written.into_iter().map(u16::from).collect(),
    };
    let answer = case.answer.as_ref().map(Vec::len).map_err(|why| *why);
    let mut bytes = bytes_of(&case.cells);
    bytes.push(7);
    [("write_start", &case.cells), ("write_start_bytes", &bytes)]
        .map(|(definition, cells)| {
            let input = format!("{} {}", list(&case.program), list(cells));
            filled(definition, &input, answer, &memory)
        })
        .into()
}

/// A start read, into a list of entries and into one of bytes, with an odd one behind.
fn start_read(case: &StartReadCase) -> Vec<Theorem> {
    let written = case.answer.clone().unwrap_or_default();
    let answer = case.answer.as_ref().map(Vec::len).map_err(|why| *why);
    let input = format!("{} {}", list(&case.program), list(&case.start));
    let bytes = Lent {
        length: 2 * case.cell_entries + 1,
        written: bytes_of(&written),
    };
    let entries = Lent {
        length: case.cell_entries,
        written,
    };
    vec![
        filled("read_start_into", &input, answer, &entries),
        filled("read_start_into_bytes", &input, answer, &bytes),
    ]
}

/// The check on lists of entries, of a case that is an order or a ring.
pub fn of_run(case: &CheckCase) -> Option<Theorem> {
    match case.answer {
        Expected::Refused(_) => None,
        _ => checked(case).into_iter().next(),
    }
}

/// The theorems of a case, the one with this number. A refused one is refused by the same part of all four definitions, so it has the
/// theorem of the check and, in turn with other cases, one of the others.
pub fn of_case(number: usize, case: &Case) -> Vec<Theorem> {
    let case = match case {
        Case::Slip(case) => return vec![slip_read(case)],
        Case::StartWrite(case) => return start_written(case),
        Case::StartRead(case) => return start_read(case),
        Case::Check(case) => case,
    };
    let mut theorems = checked(case);
    theorems.extend(slips_written(case));
    theorems.extend(listed(case));
    if case.slip.is_none() {
        let mut others = theorems.split_off(1);
        let turn = number % others.len();
        theorems.push(others.swap_remove(turn));
    }
    theorems
}
