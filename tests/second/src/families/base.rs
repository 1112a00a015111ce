//! A program and a record with every kind of field, and ways to change them.

/// The base program: N 2, A 2, R 2, Q 2, S 3, T 8; the numbers are the places of its bytes.
#[rustfmt::skip]
pub const BASE_PROGRAM: [u8; 81] = [
    2, 2, 2, 2, 3, 8,                                             // 0: header
    6, 2, 0, 0,  0, 0, 0,  1, 1,                                  // 6: store, cell 0, register 1
    3, 1, 0, 0,  1,  0, 0, 1,                                     // 15: load, register 1, cell 1
    3, 3, 0, 0,  0,  0x10, 2, 0, 0, 2,                            // 23: assign, register 0, own + 2
    2, 4, 0, 0,  0x13, 2, 0, 0, 1,                                // 33: assume, own = 1
    30, 6, 0, 0,  0, 0, 0,  0x11, 0, 0, 3, 2,  0, 0, 1,  1, 0,    // 42: write, 0, 3 - own, 1, register 0
    30, 5, 0, 0,  0, 0, 1,  3,  0, 0, 0,  0, 0, 0,                // 59: read, 1, N, 0, queue 0
    0, 9, 0, 1,                                                   // 73: bar
    0, 9, 1, 2,                                                   // 77: bar
];

/// The base record of nine items: an order of groups 0 to 3, all cells 0 at the end.
#[rustfmt::skip]
pub const BASE_RECORD: [u8; 57] = [
    0, 9,                             // 0: count
    59, 2, 1, 0, 1, 0, 0, 0, 0,       // 2: item 0, store of rank 1 at cell 0 of rank 1, value 0
    3, 6, 1, 4,                       // 11: item 1, write of rank 1
    3, 5, 2, 5,                       // 15: item 2, read of rank 2
    29, 7, 1, 0, 1, 0, 0,             // 19: item 3, popa of rank 1, queue 0, at cell 0 of rank 1
    61, 8, 1, 0, 2, 0, 1, 0, 0,       // 26: item 4, popb of rank 1, at cell 1 of rank 2, value 0
    29, 7, 2, 0, 2, 0, 0,             // 35: item 5, popa of rank 2, queue 0, at cell 0 of rank 2
    29, 8, 2, 0, 2, 0, 1,             // 42: item 6, popb of rank 2, at cell 1 of rank 2
    3, 9, 1, 6,                       // 49: item 7, bar of rank 1
    3, 9, 2, 6,                       // 53: item 8, bar of rank 2
];

/// The bytes with some of them replaced.
fn with(bytes: &[u8], changes: &[(usize, u8)]) -> Vec<u8> {
    let mut changed = bytes.to_vec();
    for &(at, byte) in changes {
        changed[at] = byte;
    }
    changed
}

/// The base program with some bytes replaced.
pub fn program_with(changes: &[(usize, u8)]) -> Vec<u8> {
    with(&BASE_PROGRAM, changes)
}

/// The base record with some bytes replaced.
pub fn record_with(changes: &[(usize, u8)]) -> Vec<u8> {
    with(&BASE_RECORD, changes)
}

/// Two stretches of bytes, one after the other.
pub fn join(first: &[u8], second: &[u8]) -> Vec<u8> {
    [first, second].concat()
}

/// A record with this count and these item bytes.
pub fn record_of(count: u16, items: &[u8]) -> Vec<u8> {
    join(&count.to_be_bytes(), items)
}

/// A record of one item.
pub fn one(item: &[u8]) -> Vec<u8> {
    record_of(1, item)
}

/// A record of several items.
pub fn several(items: &[&[u8]]) -> Vec<u8> {
    record_of(items.len() as u16, &items.concat())
}
