//! The one place where the proved library is called, and the one place with `unsafe`.

/// What check and listing return for an order.
pub const ORDER: u8 = 0;
/// What they return for a ring.
pub const RING: u8 = 255;

/// A function that fills one area.
type Fills = unsafe extern "C" fn(
    program: *const u8,
    program_length: usize,
    start: *const u8,
    start_length: usize,
    record: *const u8,
    record_length: usize,
    memory: *mut u8,
    memory_length: usize,
    value: *mut usize,
) -> u8;

extern "C" {
    /// The functions of `include/lellmusu.h`.
    fn lellmusu_check(
        program: *const u8,
        program_length: usize,
        start: *const u8,
        start_length: usize,
        record: *const u8,
        record_length: usize,
        order: *mut u8,
        order_length: usize,
        cells: *mut u8,
        cells_length: usize,
        value: *mut usize,
    ) -> u8;

    fn lellmusu_list(
        program: *const u8,
        program_length: usize,
        start: *const u8,
        start_length: usize,
        record: *const u8,
        record_length: usize,
        text: *mut u8,
        text_length: usize,
        value: *mut usize,
    ) -> u8;

    fn lellmusu_write_slip(
        program: *const u8,
        program_length: usize,
        start: *const u8,
        start_length: usize,
        record: *const u8,
        record_length: usize,
        slip: *mut u8,
        slip_length: usize,
        value: *mut usize,
    ) -> u8;
}

/// The whole check on lent bytes: the number and the value that it tells.
pub fn check(
    program: &[u8],
    start: &[u8],
    record: &[u8],
    order: &mut [u8],
    cells: &mut [u8],
) -> (u8, usize) {
    let mut value = 0;
    // Each pointer comes from a reference of its own, and each length is that of its slice.
    let number = unsafe {
        lellmusu_check(
            program.as_ptr(),
            program.len(),
            start.as_ptr(),
            start.len(),
            record.as_ptr(),
            record.len(),
            order.as_mut_ptr(),
            order.len(),
            cells.as_mut_ptr(),
            cells.len(),
            &mut value,
        )
    };
    (number, value)
}

/// A function that fills one area, on lent bytes.
fn fill(
    function: Fills,
    program: &[u8],
    start: &[u8],
    record: &[u8],
    memory: &mut [u8],
) -> (u8, usize) {
    let mut value = 0;
    // As above.
    let number = unsafe {
        function(
            program.as_ptr(),
            program.len(),
            start.as_ptr(),
            start.len(),
            record.as_ptr(),
            record.len(),
            memory.as_mut_ptr(),
            memory.len(),
            &mut value,
        )
    };
    (number, value)
}

/// The listing.
pub fn list(program: &[u8], start: &[u8], record: &[u8], text: &mut [u8]) -> (u8, usize) {
    fill(lellmusu_list, program, start, record, text)
}

/// The slip's writer.
pub fn write_slip(program: &[u8], start: &[u8], record: &[u8], slip: &mut [u8]) -> (u8, usize) {
    fill(lellmusu_write_slip, program, start, record, slip)
}
