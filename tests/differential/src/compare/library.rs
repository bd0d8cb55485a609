//! The library's exported calls, each behind a safe function that checks what it wrote.

use crate::crash;
use crate::exported;
use crate::frame::Frame;
use crate::guard::Input;
use crate::lent::Lent;
use crate::trials;
use differential::carrier::{
    self, Ask, Asked, Reply, CHECK_WORDS, CLASS_WORDS, EDIT_WORDS, FIND_WORDS, MOVE_WORDS,
    RUN_WORDS, SUMMARY_WORDS, VERDICT_WORDS,
};
use differential::case::{Answer, Call, Described, Form, Request, BIT_WORDS, FIELD_WORDS};
use differential::plain::Edit;
use differential::recipe;
use std::borrow::Cow;

extern "C" {
    fn emdf_bit_cursor(bytes: *const u8, length: usize, answer: *mut u8) -> u32;
    fn emdf_bits_remaining(
        bytes: *const u8,
        length: usize,
        position: usize,
        end: usize,
        answer: *mut u8,
    ) -> u32;
    fn emdf_read_bits(
        bytes: *const u8,
        length: usize,
        position: usize,
        end: usize,
        width: u8,
        answer: *mut u8,
    ) -> u32;
    fn emdf_read_bit(
        bytes: *const u8,
        length: usize,
        position: usize,
        end: usize,
        answer: *mut u8,
    ) -> u32;
    fn emdf_take_bits(
        bytes: *const u8,
        length: usize,
        position: usize,
        end: usize,
        count: usize,
        answer: *mut u8,
    ) -> u32;
    fn emdf_byte_align(
        bytes: *const u8,
        length: usize,
        position: usize,
        end: usize,
        answer: *mut u8,
    ) -> u32;
    fn emdf_variable_bits(
        bytes: *const u8,
        length: usize,
        position: usize,
        end: usize,
        width: u8,
        limit: u8,
        answer: *mut u8,
    ) -> u32;
    fn emdf_classify(bytes: *const u8, length: usize, answer: *mut u8) -> u32;
    fn emdf_read(
        bytes: *const u8,
        length: usize,
        table: *mut u8,
        table_length: usize,
        answer: *mut u8,
    ) -> u32;
    fn emdf_find_payload(
        bytes: *const u8,
        length: usize,
        id: u64,
        ordinal: u64,
        answer: *mut u8,
    ) -> u32;
    fn emdf_move_body(
        bytes: *const u8,
        length: usize,
        place: usize,
        scratch: *mut u8,
        scratch_length: usize,
        answer: *mut u8,
    ) -> u32;
    fn emdf_verdict(bytes: *const u8, length: usize, profile: u32, answer: *mut u8) -> u32;
    fn emdf_check_recipe(recipe: *const u8, recipe_length: usize, answer: *mut u8) -> u32;
    fn emdf_run_recipe(
        source: *const u8,
        source_length: usize,
        recipe: *const u8,
        recipe_length: usize,
        first: *mut u8,
        first_length: usize,
        second: *mut u8,
        second_length: usize,
        answer: *mut u8,
    ) -> u32;
}

/// What the library returned and wrote.
#[derive(Clone, Copy)]
pub struct Observed {
    pub answer: Answer,
    /// False where a byte beside those of the answer was written.
    pub frame_intact: bool,
}

impl Observed {
    #[must_use]
    pub fn agrees(&self, expected: &Answer) -> bool {
        self.answer == *expected && self.frame_intact
    }
}

/// Makes one call on an input.
///
/// # Panics
///
/// On a width above 255, which the library's parameter can't hold.
#[must_use]
pub fn answer(input: &Input, request: Request) -> Observed {
    match request.call {
        Call::VariableBits => answer_of::<FIELD_WORDS>(input, request),
        _ => answer_of::<BIT_WORDS>(input, request),
    }
}

/// A call whose answer has so many numbers.
fn answer_of<const WORDS: usize>(input: &Input, request: Request) -> Observed {
    let bytes = input.bytes();
    let mut frame = Frame::<WORDS>::EMPTY;
    let number = crash::during(&Described { bytes, request }, || match request.form {
        Form::Cursor => call(bytes, request, frame.answer_mut()),
        // SAFETY: the frame has the bytes of an answer.
        Form::Reader => unsafe { trials::reader(bytes, request, frame.answer_mut()) },
    });
    let mut words = [0; FIELD_WORDS];
    words[..WORDS].copy_from_slice(&frame.words());
    Observed {
        answer: Answer { number, words },
        frame_intact: frame.is_intact_around(),
    }
}

fn call(bytes: &[u8], request: Request, answer: *mut u8) -> u32 {
    let (start, length) = (bytes.as_ptr(), bytes.len());
    let (position, end) = (request.cursor.position, request.cursor.end);
    let argument = request.argument;
    // SAFETY: the slice is alive and `answer` has the bytes it wants; cursors may be any numbers.
    unsafe {
        match request.call {
            Call::BitCursor => emdf_bit_cursor(start, length, answer),
            Call::BitsRemaining => emdf_bits_remaining(start, length, position, end, answer),
            Call::ReadBits => emdf_read_bits(start, length, position, end, request.width(), answer),
            Call::ReadBit => emdf_read_bit(start, length, position, end, answer),
            Call::TakeBits => emdf_take_bits(start, length, position, end, argument, answer),
            Call::ByteAlign => emdf_byte_align(start, length, position, end, answer),
            Call::VariableBits => {
                let (width, limit) = (request.width(), request.limit);
                emdf_variable_bits(start, length, position, end, width, limit, answer)
            }
        }
    }
}

/// What the library returned and wrote to its answer; what it was lent is looked at apart.
#[derive(Clone, Copy)]
pub struct Replied {
    pub reply: Reply,
    /// False where a byte beside those of the answer was written.
    pub frame_intact: bool,
}

/// Makes one call on a whole carrier.
#[must_use]
pub fn reply(bytes: &[u8], ask: Ask, lent: &mut Lent) -> Replied {
    let (start, length) = (bytes.as_ptr(), bytes.len());
    let memory = lent.lend(ask.lent());
    // SAFETY: the slice and what is lent are alive, and each answer has the bytes it wants.
    crash::during(&Asked { bytes, ask }, || unsafe {
        match ask {
            Ask::Classify => replied::<CLASS_WORDS>(|answer| emdf_classify(start, length, answer)),
            Ask::Read { table } => {
                replied::<SUMMARY_WORDS>(|answer| emdf_read(start, length, memory, table, answer))
            }
            Ask::Find { id, ordinal } => replied::<FIND_WORDS>(|answer| {
                emdf_find_payload(start, length, id, ordinal, answer)
            }),
            Ask::MoveBody { place, scratch } => replied::<MOVE_WORDS>(|answer| {
                emdf_move_body(start, length, place, memory, scratch, answer)
            }),
            Ask::Verdict { profile } => {
                replied::<VERDICT_WORDS>(|answer| emdf_verdict(start, length, profile, answer))
            }
            Ask::Parse => replied::<SUMMARY_WORDS>(|answer| trials::parse(bytes, answer)),
            Ask::Trace { table } => {
                replied::<SUMMARY_WORDS>(|answer| trials::trace(bytes, (memory, table), answer))
            }
            Ask::ChooseBody {
                place,
                scratch,
                is_moved,
                room,
            } => {
                let scratch = scratch_of(bytes, place, scratch, is_moved);
                let chosen = trials::choose_body(bytes, place, &scratch, (memory, room));
                Replied {
                    reply: Reply::accepted(&[chosen as u64]),
                    frame_intact: true,
                }
            }
            Ask::StrictVerdict => replied::<VERDICT_WORDS>(|answer| trials::verdict(bytes, answer)),
        }
    })
}

/// A scratch of so many bytes, with the body moved to it or without; what moving answers is compared elsewhere.
fn scratch_of(bytes: &[u8], place: usize, length: usize, is_moved: bool) -> Cow<'static, [u8]> {
    let mut scratch = Cow::from(carrier::noise(length));
    if is_moved {
        let mut answer = [0; 8 * MOVE_WORDS];
        let (start, length) = (bytes.as_ptr(), bytes.len());
        let to = scratch.to_mut();
        let (to, lent) = (to.as_mut_ptr(), to.len());
        // SAFETY: both slices are alive, and the answer has the bytes it wants.
        unsafe { emdf_move_body(start, length, place, to, lent, answer.as_mut_ptr()) };
    }
    scratch
}

/// Makes one edit; the step's slices are handed over from where these lie.
#[must_use]
pub fn edit(edit: &Edit, slices: [&[u8]; 2], lent: &mut Lent) -> Replied {
    let Edit {
        source,
        step,
        destination,
    } = *edit;
    let memory = (lent.lend(destination), destination);
    // SAFETY: all slices and the destination are alive, and the answer has the bytes it wants.
    crash::during(edit, || unsafe {
        replied::<EDIT_WORDS>(|answer| exported::edit(source, step, slices, memory, answer))
    })
}

/// Makes one call on a recipe; its slices are handed over from where they lie.
#[must_use]
pub fn recipe(asked: &recipe::Asked, buffers: &mut [Lent; 2]) -> Replied {
    let (file, length) = (asked.file.as_ptr(), asked.file.len());
    let [first, second] = buffers;
    let rooms = asked.rooms();
    let [first, second] = [first.lend(rooms[0]), second.lend(rooms[1])];
    // SAFETY: all slices and both buffers are alive, and each answer has the bytes it wants.
    crash::during(asked, || unsafe {
        match asked.run {
            None => replied::<CHECK_WORDS>(|answer| emdf_check_recipe(file, length, answer)),
            Some((source, _)) => replied::<RUN_WORDS>(|answer| {
                emdf_run_recipe(
                    source.as_ptr(),
                    source.len(),
                    file,
                    length,
                    first,
                    rooms[0],
                    second,
                    rooms[1],
                    answer,
                )
            }),
        }
    })
}

fn replied<const WORDS: usize>(call: impl FnOnce(*mut u8) -> u32) -> Replied {
    let mut frame = Frame::<WORDS>::EMPTY;
    let number = call(frame.answer_mut());
    Replied {
        reply: Reply::new(number, &frame.words()),
        frame_intact: frame.is_intact_around(),
    }
}
