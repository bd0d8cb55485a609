//! What the benchmark measures calls on: carriers, the edges of their fields, and refused bytes.

use differential::carrier::{
    A, B, HEADER, HEADER_CUT, NOT_ONE_OF_EACH, NO_SYNC_WORD, PADDING_NOT_ZERO, PADDING_TOO_LONG,
    RESERVED_NOT_ZERO, TRUNCATED, VERSION_NOT_ZERO,
};
use differential::case::{ACCEPTED, TOO_FEW_BITS};
use differential::contents::{Contents, Payload, Settings};
use differential::damage;
use differential::finds::{self, FIRST_ESCAPED};
use differential::ordinals;
use differential::profile::{JOC, OAMD, WANTED};
use differential::shapes::{MOST_GROUP_ID, MOST_OFFSET};

/// Bytes that both sides are asked for a reading and a class of.
pub struct Input {
    pub name: String,
    pub bytes: Vec<u8>,
    /// What a reading answers.
    pub number: u32,
}

impl Input {
    fn new(name: &str, bytes: Vec<u8>, number: u32) -> Self {
        Self {
            name: format!("{name} ({})", bytes.len()),
            bytes,
            number,
        }
    }
}

/// A carrier whose verdict and edits are measured too.
pub struct Subject {
    pub input: Input,
    /// The number that strict answers.
    pub verdict: u32,
    /// How many times faster than the Rust its calls are wanted.
    pub times_faster: Option<f64>,
}

impl Subject {
    fn new(name: &str, bytes: Vec<u8>, verdict: u32, times_faster: Option<f64>) -> Self {
        Self {
            input: Input::new(name, bytes, ACCEPTED),
            verdict,
            times_faster,
        }
    }
}

pub fn subjects() -> [Subject; 5] {
    let profiled = [(OAMD, 160), (JOC, 670)].map(|(id, size)| payload(id, size, WANTED));
    let other = NOT_ONE_OF_EACH;
    [
        Subject::new("A, no payload", A.to_vec(), other, None),
        Subject::new("B, a body of 1 byte", B.to_vec(), other, None),
        Subject::new(
            "two payloads of the profile",
            carrier(profiled.to_vec()),
            ACCEPTED,
            Some(50.0),
        ),
        Subject::new(
            "a body of 60,000 bytes",
            carrier(vec![plain(60_000)]),
            other,
            Some(5_000.0),
        ),
        Subject::new(
            "512 payloads of 8 bytes",
            carrier(vec![plain(8); 512]),
            other,
            Some(6.0),
        ),
    ]
}

/// Carriers in which payloads are numbered: the last payload's id and ordinal are looked for, too.
pub struct Numbered {
    pub input: Input,
    pub payloads: usize,
    pub id: u64,
    pub ordinal: u64,
    /// Whether it is as long as a carrier can be.
    pub is_longest: bool,
}

impl Numbered {
    fn new(name: &str, contents: &Contents, is_longest: bool) -> Self {
        let payloads = &contents.payloads;
        let last = payloads.last().expect("a payload");
        let ordinals = ordinals::ordinals(payloads);
        let name = format!("{} payloads, {name}", payloads.len());
        Self {
            input: Input::new(&name, contents.written().0, ACCEPTED),
            payloads: payloads.len(),
            id: last.id,
            ordinal: ordinals[ordinals.len() - 1],
            is_longest,
        }
    }
}

/// Ids that are all different, in two orders, ids by turns, and most rows to search: of 512, and of as many as a carrier has room
/// for.
pub fn numbered() -> [Numbered; 7] {
    let in_turn = |place: u64| 1 + place % 30;
    let escaped = |place: u64| FIRST_ESCAPED + place;
    let ascending = finds::with_ids((0..512).map(escaped));
    let scrambled = finds::with_ids(finds::scrambled(512));
    let turns = finds::with_ids((0..512).map(in_turn));
    let searched = finds::most_searched_of_512();
    let most_turns = finds::as_many_as_fit((0..).map(in_turn));
    let most_escaped = finds::as_many_as_fit((0..).map(escaped));
    let most_searched = finds::most_searched();
    [
        Numbered::new("escaped ids ascending", &ascending, false),
        Numbered::new("escaped ids scrambled", &scrambled, false),
        Numbered::new("30 ids in turn", &turns, false),
        Numbered::new("most rows searched", &searched, false),
        Numbered::new("30 ids in turn", &most_turns, true),
        Numbered::new("escaped ids ascending", &most_escaped, true),
        Numbered::new("most rows searched", &most_searched, true),
    ]
}

/// Inputs on which either side has little to do, or much in one field.
pub fn edges() -> Vec<Input> {
    let counts = [(1, "1 payload"), (512, "512 payloads")];
    let mut all: Vec<_> = counts
        .into_iter()
        .flat_map(|(count, name)| empty_payloads(count, name))
        .collect();
    all.extend(without_payloads());
    all.extend(refused_headers());
    all.extend(refused_containers());
    all
}

fn empty_payloads(count: usize, counted: &str) -> impl Iterator<Item = Input> + '_ {
    let least = Settings::LEAST;
    let group = |id| Settings {
        group_id: Some(id),
        ..least
    };
    let duration = |samples| Settings {
        duration: Some(samples),
        ..least
    };
    let offset = Settings {
        sample_offset: Some(MOST_OFFSET),
        ..least
    };
    let kinds = [
        ("nothing but discard", 1, least),
        ("the profile's settings", 1, WANTED),
        ("id 31", 31, least),
        ("id 2^64 - 1", u64::MAX, least),
        ("group id 4", 1, group(4)),
        ("the largest group id", 1, group(MOST_GROUP_ID)),
        ("duration 5", 1, duration(5)),
        ("duration 2048", 1, duration(2_048)),
        ("a sample offset", 1, offset),
    ];
    kinds.into_iter().map(move |(kind, id, settings)| {
        let name = format!("{counted}, {kind}");
        let bytes = carrier(vec![payload(id, 0, settings); count]);
        Input::new(&name, bytes, ACCEPTED)
    })
}

fn without_payloads() -> [Input; 4] {
    let [short, middle, long] = [1, 4, 16].map(|length| vec![0xa5; length]);
    let kinds = [
        ("key id 7", 7, short.clone(), Vec::new()),
        ("key id 2^64 - 1", u64::MAX, short, Vec::new()),
        ("protections of 4 and 4", 0, middle.clone(), middle),
        ("protections of 16 and 16", 0, long.clone(), long),
    ];
    kinds.map(|(kind, key_id, primary, secondary)| {
        let contents = Contents {
            key_id,
            payloads: Vec::new(),
            primary,
            secondary,
        };
        let name = format!("no payload, {kind}");
        Input::new(&name, contents.written().0, ACCEPTED)
    })
}

fn refused_headers() -> [Input; 6] {
    let mut other_word = A.to_vec();
    other_word[1] ^= 1;
    let missing = A[..A.len() - 1].to_vec();
    [
        Input::new("no bytes", Vec::new(), HEADER_CUT),
        Input::new("58", A[..1].to_vec(), HEADER_CUT),
        Input::new("58 38", A[..2].to_vec(), HEADER_CUT),
        Input::new("a wrong sync word", other_word, NO_SYNC_WORD),
        Input::new("declared bytes missing", missing, TRUNCATED),
        Input::new("declared 0", declaring_all(&A[..HEADER]), TOO_FEW_BITS),
    ]
}

fn refused_containers() -> [Input; 5] {
    let mut version = A.to_vec();
    // The second of the container's two bits of version.
    damage::flip(&mut version, 8 * HEADER + 1);
    let mut padding = A.to_vec();
    damage::flip(&mut padding, 8 * A.len() - 1);
    let longer = declaring_all(&[&A[..], &[0]].concat());
    [
        Input::new("version 1", version, VERSION_NOT_ZERO),
        Input::new("a reserved bit set", reserved_set(), RESERVED_NOT_ZERO),
        Input::new("padding not zero", padding, PADDING_NOT_ZERO),
        Input::new("more than 7 padding bits", longer, PADDING_TOO_LONG),
        Input::new("a body cut", body_cut(), TOO_FEW_BITS),
    ]
}

/// The reserved bit after a sample offset, set.
fn reserved_set() -> Vec<u8> {
    let settings = Settings {
        sample_offset: Some(0),
        ..Settings::LEAST
    };
    let (mut bytes, found) = contents(vec![payload(1, 0, settings)]).written();
    damage::flip(&mut bytes, found.spans[0].settings.start + 12);
    bytes
}

/// A body without its last byte, and nothing after it.
fn body_cut() -> Vec<u8> {
    let (bytes, found) = contents(vec![plain(8)]).written();
    let end = found.spans[0].body.end / 8;
    declaring_all(&bytes[..end - 1])
}

/// The same bytes, declaring as many as there are.
fn declaring_all(bytes: &[u8]) -> Vec<u8> {
    let mut bytes = bytes.to_vec();
    let declared = (bytes.len() - HEADER) as u16;
    bytes[2..HEADER].copy_from_slice(&declared.to_be_bytes());
    bytes
}

fn carrier(payloads: Vec<Payload>) -> Vec<u8> {
    contents(payloads).written().0
}

fn contents(payloads: Vec<Payload>) -> Contents {
    Contents {
        key_id: 0,
        payloads,
        primary: vec![0xa5],
        secondary: Vec::new(),
    }
}

fn plain(size: usize) -> Payload {
    payload(1, size, Settings::LEAST)
}

fn payload(id: u64, size: usize, settings: Settings) -> Payload {
    let body = (0..size).map(|place| (place * 151 + 0xc3) as u8).collect();
    Payload { id, settings, body }
}
