//! The library's exported edits, all behind one function.

use differential::plain::Step;

extern "C" {
    fn emdf_edit_body(
        source: *const u8,
        source_length: usize,
        place: usize,
        body: *const u8,
        body_length: usize,
        destination: *mut u8,
        destination_length: usize,
        answer: *mut u8,
    ) -> u32;
    fn emdf_edit_settings(
        source: *const u8,
        source_length: usize,
        place: usize,
        settings: *const u8,
        settings_length: usize,
        destination: *mut u8,
        destination_length: usize,
        answer: *mut u8,
    ) -> u32;
    fn emdf_edit_drop(
        source: *const u8,
        source_length: usize,
        place: usize,
        destination: *mut u8,
        destination_length: usize,
        answer: *mut u8,
    ) -> u32;
    fn emdf_edit_insert(
        source: *const u8,
        source_length: usize,
        place: usize,
        id: u64,
        settings: *const u8,
        settings_length: usize,
        body: *const u8,
        body_length: usize,
        destination: *mut u8,
        destination_length: usize,
        answer: *mut u8,
    ) -> u32;
    fn emdf_edit_key(
        source: *const u8,
        source_length: usize,
        key: u64,
        destination: *mut u8,
        destination_length: usize,
        answer: *mut u8,
    ) -> u32;
    fn emdf_edit_protection(
        source: *const u8,
        source_length: usize,
        primary: *const u8,
        primary_length: usize,
        secondary: *const u8,
        secondary_length: usize,
        destination: *mut u8,
        destination_length: usize,
        answer: *mut u8,
    ) -> u32;
    fn emdf_blank(
        key: u64,
        primary: *const u8,
        primary_length: usize,
        secondary: *const u8,
        secondary_length: usize,
        destination: *mut u8,
        destination_length: usize,
        answer: *mut u8,
    ) -> u32;
}

/// The call of a step, its slices handed over from where these lie.
///
/// # Safety
///
/// The destination has its length in bytes, and the answer 8 for each of `EDIT_WORDS`.
pub unsafe fn edit(
    source: &[u8],
    step: &Step,
    slices: [&[u8]; 2],
    (destination, room): (*mut u8, usize),
    answer: *mut u8,
) -> u32 {
    let (start, length) = (source.as_ptr(), source.len());
    let [(first, first_length), (second, second_length)] =
        slices.map(|slice| (slice.as_ptr(), slice.len()));
    // SAFETY: the slices are alive, and the rest is the caller's promise.
    unsafe {
        match *step {
            Step::Body { place, .. } => emdf_edit_body(
                start,
                length,
                place,
                first,
                first_length,
                destination,
                room,
                answer,
            ),
            Step::Settings { place, .. } => emdf_edit_settings(
                start,
                length,
                place,
                first,
                first_length,
                destination,
                room,
                answer,
            ),
            Step::Drop { place } => emdf_edit_drop(start, length, place, destination, room, answer),
            Step::Insert { place, id, .. } => emdf_edit_insert(
                start,
                length,
                place,
                id,
                first,
                first_length,
                second,
                second_length,
                destination,
                room,
                answer,
            ),
            Step::Key { key_id } => emdf_edit_key(start, length, key_id, destination, room, answer),
            Step::Protection { .. } => emdf_edit_protection(
                start,
                length,
                first,
                first_length,
                second,
                second_length,
                destination,
                room,
                answer,
            ),
            Step::Blank { key_id, .. } => emdf_blank(
                key_id,
                first,
                first_length,
                second,
                second_length,
                destination,
                room,
                answer,
            ),
        }
    }
}
