//! A call on a whole carrier, and its answer in the library's own figures.

use crate::case::{write_bytes, ACCEPTED};
use crate::contents::{Contents, Payload, Settings};
use crate::groups;
use crate::ordinals;
use std::fmt;
use std::ops::Range;
use std::sync::LazyLock;

pub const TRUNCATED: u32 = 1;
pub const NO_SYNC_WORD: u32 = 2;
pub const VERSION_NOT_ZERO: u32 = 8;
pub const RESERVED_NOT_ZERO: u32 = 9;
pub const NO_PRIMARY: u32 = 10;
pub const PADDING_TOO_LONG: u32 = 11;
pub const PADDING_NOT_ZERO: u32 = 12;
pub const TABLE_TOO_SHORT: u32 = 13;
pub const NOT_ONE_OF_EACH: u32 = 14;
pub const PROFILE_NOT_MET: u32 = 15;
pub const NO_SUCH_PLACE: u32 = 16;
pub const NOT_WRITABLE: u32 = 17;
pub const TOO_LONG: u32 = 18;
pub const SCRATCH_TOO_SHORT: u32 = 19;
pub const DESTINATION_TOO_SHORT: u32 = 19;
pub const BYTES_AFTER: u32 = 20;
pub const HEADER_CUT: u32 = 21;
pub const BROKEN_CHAIN: u32 = 22;
pub const INVALID_RECORD: u32 = 23;
pub const NO_SUCH_ORDINAL: u32 = 24;

/// The numbers that a call can return, 0 among them.
pub const NUMBERS: usize = 25;

pub const SYNC_WORD: u16 = 0x5838;

/// The bytes before the container: the sync word and its declared length.
pub const HEADER: usize = 4;

/// The most that a declared length can say.
pub const MOST_DECLARED: usize = 65_535;

/// The scope's carrier without a payload.
pub const A: [u8; 7] = [0x58, 0x38, 0x00, 0x03, 0x00, 0x12, 0x94];

/// The scope's carrier with a body of one byte.
pub const B: [u8; 11] = [
    0x58, 0x38, 0x00, 0x07, 0x00, 0x42, 0x02, 0xc3, 0x02, 0x52, 0x80,
];

/// A payload of the fewest bits: an id, five flags and the size of an empty body.
const LEAST_PAYLOAD: usize = 19;

/// The numbers of a reading that the original has too.
pub const ORIGINAL_WORDS: usize = 9;

/// The numbers of each answer.
pub const SUMMARY_WORDS: usize = ORIGINAL_WORDS + 1;
pub const CLASS_WORDS: usize = 1 + SUMMARY_WORDS;
pub const FIND_WORDS: usize = 2;
pub const MOVE_WORDS: usize = 2;
pub const VERDICT_WORDS: usize = 5;
pub const EDIT_WORDS: usize = 2;
pub const CHECK_WORDS: usize = 2;
pub const RUN_WORDS: usize = 3;

/// Those of the longest.
pub const MOST_WORDS: usize = CLASS_WORDS;

/// The numbers of settings, and of a row of a table: those that the original has too, and the ordinal.
pub const SETTINGS_WORDS: usize = 18;
pub const ORIGINAL_ROW_WORDS: usize = 27;
pub const ROW_WORDS: usize = ORIGINAL_ROW_WORDS + 1;

/// The bytes of one row of a table.
pub const ROW: usize = 8 * ROW_WORDS;

/// The most records that are lent to `parse_emdf_sync_with_bit_trace`.
pub const MOST_RECORDS: usize = 512;

/// The row of a record that no payload was put into.
pub const BLANK_ROW: [u64; ROW_WORDS] = {
    let mut row = [u64::MAX; ROW_WORDS];
    // The eight settings that may be absent are present.
    let mut word = 1;
    while word <= SETTINGS_WORDS {
        if word < 7 || 8 < word {
            row[word] = 1;
        }
        word += 2;
    }
    row
};

/// What is asked of a carrier; lengths are in bytes.
#[derive(Clone, Copy, Debug, Eq, PartialEq)]
pub enum Ask {
    Classify,
    Read {
        table: usize,
    },
    Find {
        id: u64,
        ordinal: u64,
    },
    MoveBody {
        place: usize,
        scratch: usize,
    },
    Verdict {
        profile: u32,
    },
    /// `parse_emdf_sync`.
    Parse,
    /// `parse_emdf_sync_with_bit_trace`, with as many records as the table has rows.
    Trace {
        table: usize,
    },
    /// `choose_body`, with a scratch that the body was moved to before, or that is noise.
    ChooseBody {
        place: usize,
        scratch: usize,
        is_moved: bool,
        room: usize,
    },
    /// `validate_joc_profile`.
    StrictVerdict,
}

impl Ask {
    #[must_use]
    pub fn name(self) -> &'static str {
        match self {
            Self::Classify => "classify",
            Self::Read { .. } => "read",
            Self::Find { .. } => "find_payload",
            Self::MoveBody { .. } => "move_body",
            Self::Verdict { .. } => "verdict",
            Self::Parse => "parse_emdf_sync",
            Self::Trace { .. } => "parse_emdf_sync_with_bit_trace",
            Self::ChooseBody { .. } => "choose_body",
            Self::StrictVerdict => "validate_joc_profile",
        }
    }

    /// Whether a host has this call.
    fn is_exported(self) -> bool {
        matches!(
            self,
            Self::Classify
                | Self::Read { .. }
                | Self::Find { .. }
                | Self::MoveBody { .. }
                | Self::Verdict { .. }
        )
    }

    /// How many numbers its answer has.
    #[must_use]
    pub fn words(self) -> usize {
        match self {
            Self::Classify => CLASS_WORDS,
            Self::Read { .. } | Self::Parse | Self::Trace { .. } => SUMMARY_WORDS,
            Self::Find { .. } => FIND_WORDS,
            Self::MoveBody { .. } => MOVE_WORDS,
            Self::Verdict { .. } | Self::StrictVerdict => VERDICT_WORDS,
            Self::ChooseBody { .. } => 1,
        }
    }

    /// The memory that the call may write to, beside its answer.
    #[must_use]
    pub fn lent(self) -> usize {
        match self {
            Self::Classify
            | Self::Find { .. }
            | Self::Verdict { .. }
            | Self::Parse
            | Self::StrictVerdict => 0,
            Self::Read { table } | Self::Trace { table } => table,
            Self::MoveBody { scratch, .. } => scratch,
            Self::ChooseBody { room, .. } => room,
        }
    }

    /// The same at another place, where it has one.
    #[must_use]
    pub fn at(mut self, to: usize) -> Self {
        if let Self::MoveBody { place, .. } | Self::ChooseBody { place, .. } = &mut self {
            *place = to;
        }
        self
    }

    /// The same with other memory, where it takes any.
    #[must_use]
    pub fn with_lent(self, lent: usize) -> Option<Self> {
        match self {
            Self::Classify
            | Self::Find { .. }
            | Self::Verdict { .. }
            | Self::Parse
            | Self::StrictVerdict => None,
            Self::Read { .. } => Some(Self::Read { table: lent }),
            Self::Trace { .. } => Some(Self::Trace { table: lent }),
            Self::MoveBody { place, .. } => Some(Self::MoveBody {
                place,
                scratch: lent,
            }),
            Self::ChooseBody {
                place,
                scratch,
                is_moved,
                ..
            } => Some(Self::ChooseBody {
                place,
                scratch,
                is_moved,
                room: lent,
            }),
        }
    }
}

/// What a call returns and the numbers that it writes; those that its answer lacks are 0.
#[derive(Clone, Copy, Debug, Eq, PartialEq)]
pub struct Reply {
    pub number: u32,
    pub words: [u64; MOST_WORDS],
}

impl Reply {
    #[must_use]
    pub fn new(number: u32, first: &[u64]) -> Self {
        let mut words = [0; MOST_WORDS];
        words[..first.len()].copy_from_slice(first);
        Self { number, words }
    }

    #[must_use]
    pub fn accepted(first: &[u64]) -> Self {
        Self::new(ACCEPTED, first)
    }

    /// The reply as it stands in a report on what was asked.
    #[must_use]
    pub fn shown(&self, ask: Ask) -> String {
        self.shown_words(ask.words())
    }

    /// The same, for an answer of so many numbers.
    #[must_use]
    pub fn shown_words(&self, words: usize) -> String {
        let words: Vec<_> = self.words[..words].iter().map(u64::to_string).collect();
        format!("number {}, answer {}", self.number, words.join(" "))
    }
}

/// A refusal's number and its figures, 0 for those that it lacks.
#[derive(Clone, Copy, Debug, Eq, PartialEq)]
pub struct Refusal {
    pub number: u32,
    pub figures: [u64; 2],
}

impl Refusal {
    #[must_use]
    pub fn new(number: u32, figures: [u64; 2]) -> Self {
        Self { number, figures }
    }

    #[must_use]
    pub fn reply(&self) -> Reply {
        Reply::new(self.number, &self.figures)
    }
}

/// Where a payload's parts stand, in bits from the carrier's first bit.
#[derive(Clone, Debug, Eq, PartialEq)]
pub struct Spans {
    pub id: Range<usize>,
    pub settings: Range<usize>,
    pub size: Range<usize>,
    pub body: Range<usize>,
}

/// What a reading finds in a carrier that it accepts; a payload has its spans.
#[derive(Clone, Debug, Eq, PartialEq)]
pub struct Found {
    pub consumed: usize,
    pub contents: Contents,
    pub spans: Vec<Spans>,
}

pub type Reading = Result<Found, Refusal>;

impl Found {
    /// The body at a place, and the bit that it starts at.
    #[must_use]
    pub fn body(&self, place: usize) -> Option<(&[u8], usize)> {
        let payload = self.contents.payloads.get(place)?;
        let spans = self.spans.get(place)?;
        Some((&payload.body, spans.body.start))
    }

    #[must_use]
    pub fn summary(&self) -> [u64; SUMMARY_WORDS] {
        summary(self.consumed, &self.contents)
    }

    /// A table's rows, a payload each; their ordinals are by the definition alone.
    pub fn rows(&self) -> impl Iterator<Item = [u64; ROW_WORDS]> + '_ {
        let payloads = &self.contents.payloads;
        let ordinals = ordinals::ordinals(payloads);
        let parts = payloads.iter().zip(&self.spans).zip(ordinals);
        parts.map(|((payload, spans), ordinal)| row(payload, spans, ordinal))
    }
}

/// The ten numbers of an accepted reading, the last one by the definition alone.
#[must_use]
pub fn summary(consumed: usize, contents: &Contents) -> [u64; SUMMARY_WORDS] {
    let [primary, secondary] = [&contents.primary, &contents.secondary].map(|bytes| {
        let number = bytes
            .iter()
            .fold(0, |number, &byte| number << 8 | u128::from(byte));
        [bytes.len() as u64, (number >> 64) as u64, number as u64]
    });
    let mut words = [0; SUMMARY_WORDS];
    words[0] = consumed as u64;
    words[1] = contents.key_id;
    words[2] = contents.payloads.len() as u64;
    words[3..6].copy_from_slice(&primary);
    words[6..ORIGINAL_WORDS].copy_from_slice(&secondary);
    words[ORIGINAL_WORDS] = groups::largest(contents);
    words
}

fn row(payload: &Payload, spans: &Spans, ordinal: u64) -> [u64; ROW_WORDS] {
    let mut words = [0; ROW_WORDS];
    words[0] = payload.id;
    words[1..=SETTINGS_WORDS].copy_from_slice(&settings(&payload.settings));
    let parts = [&spans.id, &spans.settings, &spans.size, &spans.body];
    let bits = parts.into_iter().flat_map(|part| [part.start, part.end]);
    for (word, bit) in words[1 + SETTINGS_WORDS..].iter_mut().zip(bits) {
        *word = bit as u64;
    }
    words[ORIGINAL_ROW_WORDS] = ordinal;
    words
}

/// Presence and value of each setting in the scope's order, the two flags without a presence.
#[must_use]
pub fn settings(settings: &Settings) -> [u64; SETTINGS_WORDS] {
    let pair = |setting: Option<u64>| [u64::from(setting.is_some()), setting.unwrap_or(0)];
    let bit = |setting: Option<bool>| pair(setting.map(u64::from));
    let [offset, duration, group_id] =
        [settings.sample_offset, settings.duration, settings.group_id].map(pair);
    let [aligned, create, remove] = [settings.aligned, settings.create, settings.remove].map(bit);
    let [priority, processing] = [settings.priority, settings.processing].map(pair);
    let flags = [settings.codec, settings.discard].map(u64::from);
    let in_order = [
        offset, duration, group_id, flags, aligned, create, remove, priority, processing,
    ];
    std::array::from_fn(|place| in_order[place / 2][place % 2])
}

/// What stands in a scratch that nothing was moved to; longer than any body.
static NOISE: LazyLock<Vec<u8>> =
    LazyLock::new(|| (0..1 << 17).map(|place| (167 * place + 13) as u8).collect());

/// The first so many bytes of such a scratch.
#[must_use]
pub fn noise(length: usize) -> &'static [u8] {
    &NOISE[..length]
}

/// As many rows as payloads can stand in a carrier of so many bytes.
#[must_use]
pub fn most_rows(length: usize) -> usize {
    8 * length / LEAST_PAYLOAD
}

/// What is asked of some bytes, as it stands in a report.
#[derive(Clone, Copy)]
pub struct Asked<'a> {
    pub bytes: &'a [u8],
    pub ask: Ask,
}

impl fmt::Display for Asked<'_> {
    fn fmt(&self, formatter: &mut fmt::Formatter<'_>) -> fmt::Result {
        let prefix = if self.ask.is_exported() { "emdf_" } else { "" };
        writeln!(formatter, "  call      {prefix}{}", self.ask.name())?;
        write_bytes(formatter, self.bytes)?;
        match self.ask {
            Ask::Classify | Ask::Parse | Ask::StrictVerdict => Ok(()),
            Ask::Read { table } | Ask::Trace { table } => {
                writeln!(formatter, "  table     {table} bytes")
            }
            Ask::Find { id, ordinal } => {
                writeln!(formatter, "  id        {id}")?;
                writeln!(formatter, "  ordinal   {ordinal}")
            }
            Ask::MoveBody { place, scratch } => {
                writeln!(formatter, "  place     {place}")?;
                writeln!(formatter, "  scratch   {scratch} bytes")
            }
            Ask::Verdict { profile } => writeln!(formatter, "  profile   {profile}"),
            Ask::ChooseBody {
                place,
                scratch,
                is_moved,
                room,
            } => {
                let holds = if is_moved { "the body, moved" } else { "noise" };
                writeln!(formatter, "  place     {place}")?;
                writeln!(formatter, "  scratch   {scratch} bytes of {holds}")?;
                writeln!(formatter, "  room      {room} bytes")
            }
        }
    }
}
