//! The library's calls that no host makes, as crates/emdf_trials exports them.

use differential::case::{Call, Request};

extern "C" {
    fn trial_reader(
        call: u32,
        bytes: *const u8,
        length: usize,
        position: usize,
        end: usize,
        argument: usize,
        answer: *mut u8,
    ) -> u32;
    fn trial_parse(bytes: *const u8, length: usize, answer: *mut u8) -> u32;
    fn trial_trace(
        bytes: *const u8,
        length: usize,
        table: *mut u8,
        table_length: usize,
        answer: *mut u8,
    ) -> u32;
    fn trial_choose_body(
        bytes: *const u8,
        length: usize,
        place: usize,
        scratch: *const u8,
        scratch_length: usize,
        chosen: *mut u8,
        chosen_length: usize,
    ) -> usize;
    fn trial_verdict(bytes: *const u8, length: usize, answer: *mut u8) -> u32;
    fn trial_copy(
        out: *mut u8,
        out_length: usize,
        at: usize,
        source: *const u8,
        source_length: usize,
        from: usize,
        bits: usize,
    ) -> u32;
    fn trial_put(out: *mut u8, out_length: usize, at: usize, width: usize, value: u64) -> u32;
}

/// A method of a `BitReader` that stands at the request's cursor.
///
/// # Safety
///
/// The answer has the bytes of a bit call's.
pub unsafe fn reader(bytes: &[u8], request: Request, answer: *mut u8) -> u32 {
    let (start, length) = (bytes.as_ptr(), bytes.len());
    let (position, end) = (request.cursor.position, request.cursor.end);
    let argument = match request.call {
        Call::ReadBits => usize::from(request.width()),
        _ => request.argument,
    };
    let call = request.call as u32;
    // SAFETY: the slice is alive, and the rest is the caller's promise.
    unsafe { trial_reader(call, start, length, position, end, argument, answer) }
}

/// `parse_emdf_sync`.
///
/// # Safety
///
/// The answer has the bytes of a reading's.
pub unsafe fn parse(bytes: &[u8], answer: *mut u8) -> u32 {
    // SAFETY: the slice is alive, and the rest is the caller's promise.
    unsafe { trial_parse(bytes.as_ptr(), bytes.len(), answer) }
}

/// `parse_emdf_sync_with_bit_trace`, all its records told as rows.
///
/// # Safety
///
/// The table has its length in bytes, and the answer those of a reading's.
pub unsafe fn trace(bytes: &[u8], (table, room): (*mut u8, usize), answer: *mut u8) -> u32 {
    // SAFETY: the slice is alive, and the rest is the caller's promise.
    unsafe { trial_trace(bytes.as_ptr(), bytes.len(), table, room, answer) }
}

/// `choose_body`: how long the part is that it hands back, and its bytes as far as there is room.
///
/// # Safety
///
/// The chosen bytes' place has its length.
pub unsafe fn choose_body(
    bytes: &[u8],
    place: usize,
    scratch: &[u8],
    (chosen, room): (*mut u8, usize),
) -> usize {
    let (start, length) = (bytes.as_ptr(), bytes.len());
    let (from, lent) = (scratch.as_ptr(), scratch.len());
    // SAFETY: both slices are alive, and the rest is the caller's promise.
    unsafe { trial_choose_body(start, length, place, from, lent, chosen, room) }
}

/// `validate_joc_profile`.
///
/// # Safety
///
/// The answer has the bytes of a verdict's.
pub unsafe fn verdict(bytes: &[u8], answer: *mut u8) -> u32 {
    // SAFETY: the slice is alive, and the rest is the caller's promise.
    unsafe { trial_verdict(bytes.as_ptr(), bytes.len(), answer) }
}

/// `copy_bits`: 1 where the bits were put, else 0.
///
/// # Safety
///
/// The memory that is written to has its length.
pub unsafe fn copy(
    (out, room): (*mut u8, usize),
    at: usize,
    source: &[u8],
    from: usize,
    bits: usize,
) -> u32 {
    let (start, length) = (source.as_ptr(), source.len());
    // SAFETY: the slice is alive, and the rest is the caller's promise.
    unsafe { trial_copy(out, room, at, start, length, from, bits) }
}

/// `put_number`: 1 where the bits were put, else 0.
///
/// # Safety
///
/// The memory that is written to has its length.
pub unsafe fn put((out, room): (*mut u8, usize), at: usize, width: usize, value: u64) -> u32 {
    // SAFETY: the caller's promise.
    unsafe { trial_put(out, room, at, width, value) }
}
