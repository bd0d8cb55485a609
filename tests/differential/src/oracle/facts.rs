//! The Rust side of the calls on a carrier: the original's answers, told in the library's figures.

use crate::carrier::{
    noise, summary, Ask, Found, Reading, Refusal, Reply, Spans, BLANK_ROW, HEADER, HEADER_CUT,
    MOST_RECORDS, NO_PRIMARY, NO_SUCH_ORDINAL, NO_SUCH_PLACE, NO_SYNC_WORD, PADDING_NOT_ZERO,
    PADDING_TOO_LONG, RESERVED_NOT_ZERO, ROW, SCRATCH_TOO_SHORT, TABLE_TOO_SHORT, TRUNCATED,
    VERDICT_WORDS, VERSION_NOT_ZERO,
};
use crate::case::{ACCEPTED, TOO_FEW_BITS, TOO_MANY_GROUPS, VALUE_TOO_LARGE};
use crate::contents::{Contents, Payload, Settings};
use crate::groups;
use crate::ordinals;
use crate::profile::STRICT;
use crate::verdict::Verdicts;
use openjoc_bitio::BitError;
use openjoc_emdf::{
    CarrierClassification, EmdfContainer, EmdfError, EmdfPayload, EmdfPayloadBitTrace,
    EmdfPayloadConfig, ParsedEmdfBitTrace,
};
use std::borrow::Cow;
use std::cell::OnceCell;

/// The classes in the order of their numbers.
#[derive(Clone, Copy, Debug, Eq, PartialEq)]
pub enum Class {
    NonEmdf = 0,
    Parsed = 1,
    TrailingData = 2,
    Malformed = 3,
}

/// All that the original says of one carrier; what costs time only once it is asked for.
pub struct Facts<'a> {
    bytes: &'a [u8],
    pub reading: Reading,
    verdicts: Verdicts,
    classification: OnceCell<(Class, Reply)>,
    rows: OnceCell<Vec<u8>>,
}

impl<'a> Facts<'a> {
    #[must_use]
    pub fn new(bytes: &'a [u8]) -> Self {
        let traced = openjoc_emdf::parse_emdf_sync_with_bit_trace(bytes)
            .map_err(|error| refusal(error, bytes));
        let verdicts = match &traced {
            Ok(traced) => Verdicts::new(&traced.parsed.container),
            Err(refusal) => Verdicts::refused(refusal.reply()),
        };
        Self {
            bytes,
            reading: traced.map(found),
            verdicts,
            classification: OnceCell::new(),
            rows: OnceCell::new(),
        }
    }

    #[must_use]
    pub fn class(&self) -> Class {
        self.classification().0
    }

    /// The payloads of a carrier that is accepted.
    #[must_use]
    pub fn count(&self) -> usize {
        let found = self.reading.as_ref();
        found.map_or(0, |found| found.contents.payloads.len())
    }

    #[must_use]
    pub fn reply(&self, ask: Ask) -> Reply {
        match ask {
            Ask::Classify => self.classification().1,
            Ask::Read { table } => self.reading_reply(table),
            Ask::Find { id, ordinal } => self.find_reply(id, ordinal),
            Ask::MoveBody { place, scratch } => self.body_reply(place, scratch),
            Ask::Verdict { profile: STRICT } | Ask::StrictVerdict => {
                self.with_groups(self.verdicts.strict)
            }
            Ask::Verdict { .. } => self.with_groups(self.verdicts.compat),
            Ask::Parse => self.parsed_reply(),
            Ask::Trace { table } => self.reading_reply(ROW * lent_records(table)),
            Ask::ChooseBody { .. } => Reply::accepted(&[self.chosen(ask).len() as u64]),
        }
    }

    /// What the first bytes of the lent memory have to be after the call; all others stay.
    #[must_use]
    pub fn written(&self, ask: Ask) -> Cow<'_, [u8]> {
        match ask {
            Ask::Read { table } if self.count() <= table / ROW => self.rows().into(),
            Ask::MoveBody { place, scratch } => match self.body(place) {
                Some((body, start)) if start % 8 != 0 && body.len() <= scratch => body.into(),
                _ => Cow::Borrowed(&[]),
            },
            Ask::Trace { table } => self.records(lent_records(table)).into(),
            Ask::ChooseBody { room, .. } => {
                let chosen = self.chosen(ask);
                chosen[..room.min(chosen.len())].into()
            }
            _ => Cow::Borrowed(&[]),
        }
    }

    /// So many records, as rows: those of the payloads where they are enough, and blank ones.
    fn records(&self, lent: usize) -> Vec<u8> {
        let mut rows = Vec::new();
        if self.count() <= lent {
            rows.extend_from_slice(self.rows());
        }
        let blank = BLANK_ROW.map(u64::to_be_bytes);
        let rest = lent - rows.len() / ROW;
        rows.extend(blank.as_flattened().repeat(rest));
        rows
    }

    /// The body in the carrier or in the scratch, or nothing.
    fn chosen(&self, ask: Ask) -> &[u8] {
        let Ask::ChooseBody {
            place,
            scratch,
            is_moved,
            ..
        } = ask
        else {
            unreachable!("chooses no body: {ask:?}")
        };
        match self.body(place) {
            Some((body, start)) if start % 8 == 0 => body,
            Some((body, _)) if scratch < body.len() => &[],
            Some((body, _)) if is_moved => body,
            Some((body, _)) => noise(body.len()),
            None => &[],
        }
    }

    /// The body at a place of a carrier that is accepted, and the bit that it starts at.
    #[must_use]
    pub fn body(&self, place: usize) -> Option<(&[u8], usize)> {
        self.reading.as_ref().ok()?.body(place)
    }

    fn classification(&self) -> (Class, Reply) {
        *self
            .classification
            .get_or_init(|| classification(self.bytes))
    }

    /// The rows of the reading, as they stand in a table.
    fn rows(&self) -> &[u8] {
        self.rows.get_or_init(|| match &self.reading {
            Ok(found) => found.rows().flatten().flat_map(u64::to_be_bytes).collect(),
            Err(_) => Vec::new(),
        })
    }

    /// The original's verdict, and where it accepts, what the definition says of the groups.
    fn with_groups(&self, mut verdict: Reply) -> Reply {
        if let (Ok(found), ACCEPTED) = (&self.reading, verdict.number) {
            verdict.words[VERDICT_WORDS - 1] = groups::largest(&found.contents);
        }
        verdict
    }

    /// From the original's call that reads without a trace.
    fn parsed_reply(&self) -> Reply {
        match openjoc_emdf::parse_emdf_sync(self.bytes) {
            Ok(parsed) => {
                let words = summary(parsed.bytes_consumed, &contents(parsed.container));
                Reply::accepted(&words)
            }
            Err(error) => refusal(error, self.bytes).reply(),
        }
    }

    fn reading_reply(&self, table: usize) -> Reply {
        match &self.reading {
            Ok(_) if table / ROW < self.count() => {
                Refusal::new(TABLE_TOO_SHORT, [self.count() as u64, 0]).reply()
            }
            Ok(found) => Reply::accepted(&found.summary()),
            Err(refusal) => refusal.reply(),
        }
    }

    /// On what the original reads, by the definition: it has no such call itself.
    fn find_reply(&self, id: u64, ordinal: u64) -> Reply {
        match &self.reading {
            Ok(found) => match ordinals::find(&found.contents, id, ordinal) {
                Some(place) => Reply::accepted(&[place as u64]),
                None => Reply::new(NO_SUCH_ORDINAL, &[]),
            },
            Err(refusal) => refusal.reply(),
        }
    }

    fn body_reply(&self, place: usize, scratch: usize) -> Reply {
        if let Err(refusal) = &self.reading {
            return refusal.reply();
        }
        let Some((body, start)) = self.body(place) else {
            return Reply::new(NO_SUCH_PLACE, &[]);
        };
        let size = body.len() as u64;
        if start % 8 != 0 && scratch < body.len() {
            return Reply::new(SCRATCH_TOO_SHORT, &[size]);
        }
        Reply::accepted(&[start as u64, size])
    }
}

/// As many records as rows of a table of so many bytes, up to the most.
fn lent_records(table: usize) -> usize {
    MOST_RECORDS.min(table / ROW)
}

/// What the original's reading finds, or why it refuses.
///
/// # Errors
///
/// With the refusal, in the library's figures.
pub fn reading(bytes: &[u8]) -> Reading {
    openjoc_emdf::parse_emdf_sync_with_bit_trace(bytes)
        .map(found)
        .map_err(|error| refusal(error, bytes))
}

fn classification(bytes: &[u8]) -> (Class, Reply) {
    let (class, reply) = match openjoc_emdf::classify_emdf_carrier(bytes) {
        CarrierClassification::NonEmdf => (Class::NonEmdf, Reply::accepted(&[])),
        CarrierClassification::Parsed(parsed) => {
            let words = summary(parsed.bytes_consumed, &contents(parsed.container));
            (Class::Parsed, Reply::accepted(&words))
        }
        CarrierClassification::TrailingData {
            container_bytes,
            carrier_bytes,
        } => {
            let words = [container_bytes, carrier_bytes].map(|bytes| bytes as u64);
            (Class::TrailingData, Reply::accepted(&words))
        }
        CarrierClassification::Malformed(error) => {
            (Class::Malformed, refusal(error, bytes).reply())
        }
    };
    (class, after_class(class, &reply))
}

/// The class is the answer's first number, the figures follow it.
fn after_class(class: Class, reply: &Reply) -> Reply {
    let mut words = reply.words;
    words.rotate_right(1);
    words[0] = class as u64;
    Reply::new(reply.number, &words)
}

fn found(traced: ParsedEmdfBitTrace) -> Found {
    Found {
        consumed: traced.parsed.bytes_consumed,
        contents: contents(traced.parsed.container),
        spans: traced.payloads.iter().map(spans).collect(),
    }
}

fn contents(container: EmdfContainer) -> Contents {
    Contents {
        key_id: container.key_id,
        payloads: container.payloads.into_iter().map(payload).collect(),
        primary: container.protection.primary,
        secondary: container.protection.secondary,
    }
}

fn payload(payload: EmdfPayload) -> Payload {
    Payload {
        id: payload.id,
        settings: settings(&payload.config),
        body: payload.data,
    }
}

fn settings(config: &EmdfPayloadConfig) -> Settings {
    Settings {
        sample_offset: config.sample_offset.map(u64::from),
        duration: config.duration,
        group_id: config.group_id,
        codec: config.codec_data_present,
        discard: config.discard_unknown_payload,
        aligned: config.payload_frame_aligned,
        create: config.create_duplicate,
        remove: config.remove_duplicate,
        priority: config.priority.map(u64::from),
        processing: config.processing_allowed.map(u64::from),
    }
}

fn spans(trace: &EmdfPayloadBitTrace) -> Spans {
    Spans {
        id: trace.payload_id_start_bit..trace.payload_id_end_bit,
        settings: trace.config_start_bit..trace.config_end_bit,
        size: trace.payload_size_start_bit..trace.payload_size_end_bit,
        body: trace.payload_body_start_bit..trace.payload_body_end_bit,
    }
}

/// The original has one error for a header and for a container that is cut, and the figures of the
/// two can be the same: the bytes tell which it is.
fn refusal(error: EmdfError, bytes: &[u8]) -> Refusal {
    let two = |first: usize, second: usize| [first as u64, second as u64];
    let (number, figures) = match error {
        EmdfError::TruncatedContainer {
            declared,
            available,
        } if bytes.len() < HEADER => (HEADER_CUT, two(declared, available)),
        EmdfError::TruncatedContainer {
            declared,
            available,
        } => (TRUNCATED, two(declared, available)),
        EmdfError::InvalidSyncword { actual } => (NO_SYNC_WORD, [u64::from(actual), 0]),
        EmdfError::Bit(BitError::EndOfInput {
            requested,
            remaining,
        }) => (TOO_FEW_BITS, two(requested, remaining)),
        EmdfError::VariableBitsGroupLimit { width, limit } => {
            (TOO_MANY_GROUPS, [width, limit].map(u64::from))
        }
        EmdfError::ValueOverflow => (VALUE_TOO_LARGE, [0, 0]),
        EmdfError::UnsupportedVersion { version } => (VERSION_NOT_ZERO, [version, 0]),
        EmdfError::NonzeroReservedData => (RESERVED_NOT_ZERO, [0, 0]),
        EmdfError::ReservedPrimaryProtectionLength => (NO_PRIMARY, [0, 0]),
        EmdfError::ExcessPadding { bits } => (PADDING_TOO_LONG, [bits as u64, 0]),
        EmdfError::NonzeroPadding => (PADDING_NOT_ZERO, [0, 0]),
        // Its widths and bounds are fixed and fit, so 4 and 5 are not among them.
        error => unreachable!("not a reading's refusal: {error}"),
    };
    Refusal::new(number, figures)
}
