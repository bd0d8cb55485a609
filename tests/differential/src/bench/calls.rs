//! The calls that are measured, in the library and in the Rust original.

use crate::exported;
use crate::subjects::{Input, Numbered, Subject};
use differential::carrier::{
    Ask, CLASS_WORDS, EDIT_WORDS, FIND_WORDS, ROW, SUMMARY_WORDS, VERDICT_WORDS,
};
use differential::case::ACCEPTED;
use differential::facts::{self, Facts};
use differential::plain::{self, Step};
use differential::profile::{OAMD, STRICT, WANTED};
use openjoc_emdf::JocValidationProfile;
use std::hint::black_box;

/// The bytes of a table that each input's rows fit in.
const TABLE: usize = 512 * ROW;

extern "C" {
    fn emdf_classify(bytes: *const u8, length: usize, answer: *mut u8) -> u32;
    fn emdf_read(
        bytes: *const u8,
        length: usize,
        table: *mut u8,
        table_length: usize,
        answer: *mut u8,
    ) -> u32;
    fn emdf_find_payload(
        bytes: *const u8,
        length: usize,
        id: u64,
        ordinal: u64,
        answer: *mut u8,
    ) -> u32;
    fn emdf_verdict(bytes: *const u8, length: usize, profile: u32, answer: *mut u8) -> u32;
}

pub struct Call<'a> {
    pub name: &'static str,
    pub make: Box<dyn FnMut() + 'a>,
}

impl<'a> Call<'a> {
    pub fn new<T>(name: &'static str, mut answer: impl FnMut() -> T + 'a) -> Self {
        let make = Box::new(move || {
            black_box(answer());
        });
        Self { name, make }
    }
}

/// Reading and class, the library first each time.
pub fn readings(input: &Input) -> Vec<Call<'_>> {
    let bytes = &input.bytes;
    let mut table = vec![0; TABLE];
    vec![
        Call::new("read", move || library_read(bytes, &mut table)),
        Call::new("read", || rust_read(bytes)),
        Call::new("classify", || library_classify(bytes)),
        Call::new("classify", || rust_classify(bytes)),
    ]
}

/// Reading, class and verdict, the library first each time.
pub fn readings_and_verdict(subject: &Subject) -> Vec<Call<'_>> {
    let bytes = &subject.input.bytes;
    let mut calls = readings(&subject.input);
    calls.push(Call::new("verdict", || library_verdict(bytes)));
    calls.push(Call::new("verdict", || rust_verdict(bytes)));
    calls
}

/// Reading with a row for each payload, and finding the last one, the library first each time.
pub fn numbered(numbered: &Numbered) -> Vec<Call<'_>> {
    let bytes = &numbered.input.bytes;
    let mut table = vec![0; ROW * numbered.payloads];
    vec![
        Call::new("read", move || library_read(bytes, &mut table)),
        Call::new("read", || rust_read(bytes)),
        Call::new("find", || library_find(numbered)),
        Call::new("find", || rust_find(numbered)),
    ]
}

/// A copy of a carrier, and its reading.
pub fn copy_and_read(carrier: &[u8]) -> Vec<Call<'_>> {
    let mut table = vec![0; TABLE];
    let mut copied = vec![0; carrier.len()];
    vec![
        Call::new("copy", move || {
            black_box(&mut copied[..]).copy_from_slice(black_box(carrier));
        }),
        Call::new("read", move || library_read(carrier, &mut table)),
    ]
}

/// These two, and each edit that the carrier has a place for.
pub fn edits(subject: &Subject) -> Vec<Call<'_>> {
    let carrier = &subject.input.bytes;
    let mut calls = copy_and_read(carrier);
    for step in steps(carrier) {
        let mut destination = vec![0; 2 * carrier.len() + 1_000];
        calls.push(Call::new(step.name(), move || {
            library_edit(carrier, &step, &mut destination)
        }));
    }
    calls
}

/// So that nothing is measured that goes another way than the Rust, or than its name says.
pub fn check_readings(input: &Input) {
    let Input {
        name,
        bytes,
        number,
    } = input;
    let mut table = vec![0; TABLE];
    let rust = Facts::new(bytes);
    let read = rust.reply(Ask::Read { table: TABLE }).number;
    assert_eq!(read, *number, "{name}: another reading of the Rust's");
    let read = library_read(bytes, &mut table);
    assert_eq!(read, *number, "{name}: another reading of the library's");
    let class = rust.reply(Ask::Classify);
    let class = (class.number, class.words[0]);
    assert_eq!(library_classify(bytes), class, "{name}: another class");
}

/// The same for a carrier whose payloads are numbered.
pub fn check_numbered(numbered: &Numbered) {
    let Numbered {
        input, payloads, ..
    } = numbered;
    let Input { name, bytes, .. } = input;
    let mut table = vec![0; ROW * payloads];
    let rust = Facts::new(bytes);
    let read = library_read(bytes, &mut table);
    assert_eq!(read, ACCEPTED, "{name}: another reading");
    let ask = Ask::Read { table: table.len() };
    assert_eq!(table, *rust.written(ask), "{name}: another table");
    let place = (*payloads - 1) as u64;
    assert_eq!(library_find(numbered), (ACCEPTED, place), "{name}: found");
    assert_eq!(rust_find(numbered), Some(*payloads - 1), "{name}: found");
}

/// The same for the verdict and the edits.
pub fn check_subject(subject: &Subject) {
    let Subject { input, verdict, .. } = subject;
    let Input { name, bytes, .. } = input;
    check_readings(input);
    let profile = STRICT;
    let rust = Facts::new(bytes).reply(Ask::Verdict { profile }).number;
    assert_eq!(rust, *verdict, "{name}: another verdict of the Rust's");
    let library = library_verdict(bytes);
    assert_eq!(
        library, *verdict,
        "{name}: another verdict of the library's"
    );
    let mut destination = vec![0; 2 * bytes.len() + 1_000];
    for step in steps(bytes) {
        let number = library_edit(bytes, &step, &mut destination);
        assert_eq!(number, ACCEPTED, "{name}: {} is refused", step.name());
    }
}

/// Each edit, in the middle where it has a place; after it nothing keeps its bit of the byte.
fn steps(carrier: &[u8]) -> Vec<Step> {
    let contents = facts::reading(carrier).expect("a carrier").contents;
    let count = contents.payloads.len();
    let settings = plain::form(&WANTED);
    let place = count / 2;
    let mut all = Vec::new();
    if let Some(payload) = contents.payloads.get(place) {
        let body = payload.body.iter().map(|byte| !byte).collect();
        all.push(Step::Body { place, body });
        let settings = settings.clone();
        all.push(Step::Settings { place, settings });
        all.push(Step::Drop { place });
    }
    all.push(Step::Insert {
        place,
        id: OAMD,
        settings,
        body: vec![0xc3; 8],
    });
    all.push(Step::Key { key_id: 8 });
    all.push(Step::Protection {
        primary: vec![0xa5; 4],
        secondary: vec![0x5a; 1],
    });
    all
}

pub fn library_read(bytes: &[u8], table: &mut [u8]) -> u32 {
    let bytes = black_box(bytes);
    let mut answer = [0; 8 * SUMMARY_WORDS];
    // SAFETY: both slices are alive, and the answer has the bytes it wants.
    let number = unsafe {
        emdf_read(
            bytes.as_ptr(),
            bytes.len(),
            table.as_mut_ptr(),
            table.len(),
            answer.as_mut_ptr(),
        )
    };
    black_box(answer);
    number
}

fn rust_read(bytes: &[u8]) {
    let traced = openjoc_emdf::parse_emdf_sync_with_bit_trace(black_box(bytes));
    black_box(&traced);
}

/// The number returned, and the place.
fn library_find(numbered: &Numbered) -> (u32, u64) {
    let bytes = black_box(&numbered.input.bytes[..]);
    let mut answer = [0; 8 * FIND_WORDS];
    // SAFETY: the slice is alive, and the answer has the bytes it wants.
    let number = unsafe {
        emdf_find_payload(
            bytes.as_ptr(),
            bytes.len(),
            numbered.id,
            numbered.ordinal,
            answer.as_mut_ptr(),
        )
    };
    let (numbers, _) = black_box(&answer).as_chunks();
    (number, u64::from_be_bytes(numbers[0]))
}

/// The original has no ordinals; it reads, and its payloads are gone through.
fn rust_find(numbered: &Numbered) -> Option<usize> {
    let parsed = openjoc_emdf::parse_emdf_sync(black_box(&numbered.input.bytes));
    let parsed = parsed.expect("a carrier that is accepted");
    let payloads = parsed.container.payloads.iter().enumerate();
    let mut of_id = payloads.filter(|(_, payload)| payload.id == numbered.id);
    let found = of_id.nth(numbered.ordinal as usize - 1);
    found.map(|(place, _)| place)
}

/// The number returned, and the class.
fn library_classify(bytes: &[u8]) -> (u32, u64) {
    let bytes = black_box(bytes);
    let mut answer = [0; 8 * CLASS_WORDS];
    // SAFETY: the slice is alive, and the answer has the bytes it wants.
    let number = unsafe { emdf_classify(bytes.as_ptr(), bytes.len(), answer.as_mut_ptr()) };
    let class = u64::from(black_box(answer)[7]);
    (number, class)
}

fn rust_classify(bytes: &[u8]) {
    let class = openjoc_emdf::classify_emdf_carrier(black_box(bytes));
    black_box(&class);
}

fn library_verdict(bytes: &[u8]) -> u32 {
    let bytes = black_box(bytes);
    let mut answer = [0; 8 * VERDICT_WORDS];
    // SAFETY: the slice is alive, and the answer has the bytes it wants.
    let number = unsafe { emdf_verdict(bytes.as_ptr(), bytes.len(), STRICT, answer.as_mut_ptr()) };
    black_box(answer);
    number
}

/// The original has no verdict on bytes; it reads them first.
fn rust_verdict(carrier: &[u8]) {
    let parsed = openjoc_emdf::parse_emdf_sync(black_box(carrier));
    let parsed = parsed.expect("a carrier that is accepted");
    let strict = JocValidationProfile::EtsiStrict;
    let validated = openjoc_emdf::validate_joc_profile_for(&parsed.container, strict);
    black_box(&validated);
}

pub fn library_edit(carrier: &[u8], step: &Step, destination: &mut [u8]) -> u32 {
    let carrier = black_box(carrier);
    let memory = (destination.as_mut_ptr(), destination.len());
    let mut answer = [0; 8 * EDIT_WORDS];
    // SAFETY: the destination is alive, and the answer has the bytes it wants.
    let number =
        unsafe { exported::edit(carrier, step, step.slices(), memory, answer.as_mut_ptr()) };
    black_box(answer);
    number
}
