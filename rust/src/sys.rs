//! The calls of libgleanrime.a as c/gleanrime.h has them, made safe: all of the crate's unsafe code is here.
//!
//! Each call is proved total: it asks nothing of the numbers and bytes that it is given. What it does ask is what Rust's references promise anyway: a
//! slice's pointer is good for its length, and what is lent for writing overlaps nothing else.

pub mod c {
    unsafe extern "C" {
        pub fn gleanrime_walk(
            input: *const u8,
            input_len: usize,
            skip: *const u64,
            skip_len: usize,
            events: *mut u64,
            events_len: usize,
            operands: *mut u64,
            operands_len: usize,
            told: *mut u64,
            told_len: usize,
        ) -> u64;
        pub fn gleanrime_header(input: *const u8, input_len: usize, told: *mut u64, told_len: usize) -> u64;
        pub fn gleanrime_blob(input: *const u8, input_len: usize, place: u64, length: u64, from: *mut u64) -> u64;
        pub fn gleanrime_unsigned(operands: *const u64, operands_len: usize, first: u64, count: u64, bits: u64, value: *mut u64) -> u64;
        pub fn gleanrime_signed(operands: *const u64, operands_len: usize, first: u64, count: u64, value: *mut i64) -> u64;
        pub fn gleanrime_range(operands: *const u64, operands_len: usize, first: u64, count: u64, start: *mut u64, end: *mut u64) -> u64;
    }
}

/// What a walk tells, number by number; `events` and `operands` are how many there are.
pub struct Told {
    pub status: u64,
    pub place: u64,
    pub details: [u64; 2],
    pub header: [u64; 6],
    pub events: usize,
    pub operands: usize,
}

pub fn walk(input: &[u8], skip: &[u64], events: &mut [u64], operands: &mut [u64]) -> Told {
    let mut told = [0; 12];
    // SAFETY: each slice goes as its own pointer and length, and `&mut` promises that none of those that are written overlaps another.
    unsafe {
        c::gleanrime_walk(
            input.as_ptr(),
            input.len(),
            skip.as_ptr(),
            skip.len(),
            events.as_mut_ptr(),
            events.len(),
            operands.as_mut_ptr(),
            operands.len(),
            told.as_mut_ptr(),
            told.len(),
        );
    }
    let [status, place, first, second, magic, magic2, version, offset, size, cpu, events, operands] = told;
    let header = [magic, magic2, version, offset, size, cpu];
    Told { status, place, details: [first, second], header, events: events as usize, operands: operands as usize }
}

/// The status of the header, and its numbers: magic, magic2, version, offset, size, cpu.
pub fn header(input: &[u8]) -> (u64, [u64; 6]) {
    let mut told = [0; 6];
    // SAFETY: each slice goes as its own pointer and length, and `told` is nobody else's.
    let status = unsafe { c::gleanrime_header(input.as_ptr(), input.len(), told.as_mut_ptr(), told.len()) };
    (status, told)
}

/// Where a blob begins in the input, and how many bytes it has.
pub fn blob(input: &[u8], place: u64, length: u64) -> (u64, u64) {
    let mut from = 0;
    // SAFETY: the slice goes as its own pointer and length, and `from` is nobody else's.
    let bytes = unsafe { c::gleanrime_blob(input.as_ptr(), input.len(), place, length, &mut from) };
    (from, bytes)
}

/// The status of the first of these operands as an unsigned number below 2^bits, and its value.
pub fn unsigned(operands: &[u64], bits: u64) -> (u64, u64) {
    let mut value = 0;
    // SAFETY: the slice goes as its own pointer and length, and `value` is nobody else's.
    let status = unsafe { c::gleanrime_unsigned(operands.as_ptr(), operands.len(), 0, operands.len() as u64, bits, &mut value) };
    (status, value)
}

/// The status of the first of these operands as a signed number, and its value.
pub fn signed(operands: &[u64]) -> (u64, i64) {
    let mut value = 0;
    // SAFETY: the slice goes as its own pointer and length, and `value` is nobody else's.
    let status = unsafe { c::gleanrime_signed(operands.as_ptr(), operands.len(), 0, operands.len() as u64, &mut value) };
    (status, value)
}

/// The status of the first two of these operands as a start and a length, and the start and the end.
pub fn range(operands: &[u64]) -> (u64, u64, u64) {
    let (mut start, mut end) = (0, 0);
    // SAFETY: the slice goes as its own pointer and length, and `start` and `end` are two numbers of nobody else's.
    let status = unsafe { c::gleanrime_range(operands.as_ptr(), operands.len(), 0, operands.len() as u64, &mut start, &mut end) };
    (status, start, end)
}
