//! Plain contents by the scope: what is writable, the bits it needs, and the answer to each edit.

use crate::carrier::{
    self, Reading, Refusal, Reply, BYTES_AFTER, DESTINATION_TOO_SHORT, HEADER, MOST_DECLARED,
    NOT_WRITABLE, NO_SUCH_PLACE, SETTINGS_WORDS, TOO_LONG,
};
use crate::case::write_slice;
use crate::contents::{Contents, Payload, Settings};
use crate::shapes::{MOST_DURATION, MOST_GROUP_ID, MOST_OFFSET, MOST_PRIORITY, MOST_PROCESSING};
use std::fmt;

/// The bytes that settings are handed over in: those of a table's row.
pub const FORM: usize = 8 * SETTINGS_WORDS;

/// An edit without its source and destination; places count from 0.
#[derive(Clone, Debug, Eq, PartialEq)]
pub enum Step {
    Body {
        place: usize,
        body: Vec<u8>,
    },
    Settings {
        place: usize,
        settings: Vec<u8>,
    },
    Drop {
        place: usize,
    },
    Insert {
        place: usize,
        id: u64,
        settings: Vec<u8>,
        body: Vec<u8>,
    },
    Key {
        key_id: u64,
    },
    Protection {
        primary: Vec<u8>,
        secondary: Vec<u8>,
    },
    /// The blank call, which has no source.
    Blank {
        key_id: u64,
        primary: Vec<u8>,
        secondary: Vec<u8>,
    },
}

impl Step {
    #[must_use]
    pub fn name(&self) -> &'static str {
        match self {
            Self::Body { .. } => "edit_body",
            Self::Settings { .. } => "edit_settings",
            Self::Drop { .. } => "edit_drop",
            Self::Insert { .. } => "edit_insert",
            Self::Key { .. } => "edit_key",
            Self::Protection { .. } => "edit_protection",
            Self::Blank { .. } => "blank",
        }
    }

    #[must_use]
    pub fn has_source(&self) -> bool {
        !matches!(self, Self::Blank { .. })
    }

    /// The place that is named, and the first number that names none.
    #[must_use]
    pub fn place(&self, count: usize) -> Option<(usize, usize)> {
        match *self {
            Self::Body { place, .. } | Self::Settings { place, .. } | Self::Drop { place } => {
                Some((place, count))
            }
            Self::Insert { place, .. } => Some((place, count + 1)),
            Self::Key { .. } | Self::Protection { .. } | Self::Blank { .. } => None,
        }
    }

    /// Whether it writes zeros over both protections: it is neither handed others nor makes a carrier anew.
    #[must_use]
    pub fn clears(&self) -> bool {
        !matches!(self, Self::Protection { .. } | Self::Blank { .. })
    }

    /// The slices that are handed over, in their order.
    #[must_use]
    pub fn slices(&self) -> [&[u8]; 2] {
        match self {
            Self::Body { body, .. } => [body, &[]],
            Self::Settings { settings, .. } => [settings, &[]],
            Self::Insert { settings, body, .. } => [settings, body],
            Self::Drop { .. } | Self::Key { .. } => [&[], &[]],
            Self::Protection { primary, secondary }
            | Self::Blank {
                primary, secondary, ..
            } => [primary, secondary],
        }
    }

    /// The contents after the step.
    ///
    /// # Errors
    ///
    /// With the number of the first question that is answered no, and its figures.
    pub fn on(&self, contents: &Contents, destination: usize) -> Result<Contents, Refusal> {
        if let Some((place, none)) = self.place(contents.payloads.len()) {
            if place >= none {
                return Err(Refusal::new(NO_SUCH_PLACE, [0, 0]));
            }
        }
        let copy = self.change(contents).filter(is_writable);
        let copy = copy.ok_or(Refusal::new(NOT_WRITABLE, [0, 0]))?;
        if declared(&copy) > MOST_DECLARED {
            return Err(Refusal::new(TOO_LONG, [0, 0]));
        }
        let needed = length(&copy);
        if destination < needed {
            return Err(Refusal::new(DESTINATION_TOO_SHORT, [needed as u64, 0]));
        }
        Ok(copy)
    }

    /// A copy with what is named replaced, and protections cleared; none where bytes are no settings at all.
    fn change(&self, contents: &Contents) -> Option<Contents> {
        let mut copy = if self.clears() {
            contents.cleared()
        } else {
            contents.clone()
        };
        match self {
            Self::Body { place, body } => copy.payloads[*place].body.clone_from(body),
            Self::Settings { place, settings } => {
                copy.payloads[*place].settings = formed(settings)?;
            }
            Self::Drop { place } => drop(copy.payloads.remove(*place)),
            Self::Insert {
                place,
                id,
                settings,
                body,
            } => {
                let payload = Payload {
                    id: *id,
                    settings: formed(settings)?,
                    body: body.clone(),
                };
                copy.payloads.insert(*place, payload);
            }
            Self::Key { key_id } => copy.key_id = *key_id,
            Self::Protection { primary, secondary } => {
                copy.primary.clone_from(primary);
                copy.secondary.clone_from(secondary);
            }
            Self::Blank {
                key_id,
                primary,
                secondary,
            } => copy = blank(*key_id, primary, secondary),
        }
        Some(copy)
    }
}

/// A step on a source, with the length of its destination.
#[derive(Clone, Copy)]
pub struct Edit<'a> {
    pub source: &'a [u8],
    pub step: &'a Step,
    pub destination: usize,
}

impl Edit<'_> {
    /// The contents after the edit of a source that is read so; a blank's is of no account.
    ///
    /// # Errors
    ///
    /// With the number of the first question that is answered no, and its figures.
    pub fn after(&self, reading: &Reading) -> Result<Contents, Refusal> {
        if !self.step.has_source() {
            return self.step.on(&blank(0, &[], &[]), self.destination);
        }
        let found = reading.as_ref().map_err(|refusal| *refusal)?;
        if found.consumed < self.source.len() {
            return Err(Refusal::new(BYTES_AFTER, [0, 0]));
        }
        self.step.on(&found.contents, self.destination)
    }
}

/// What a call answers that leaves these contents, or is refused so.
#[must_use]
pub fn reply(after: &Result<Contents, Refusal>) -> Reply {
    match after {
        Ok(contents) => Reply::accepted(&[length(contents) as u64]),
        Err(refusal) => refusal.reply(),
    }
}

#[must_use]
pub fn blank(key_id: u64, primary: &[u8], secondary: &[u8]) -> Contents {
    Contents {
        key_id,
        payloads: Vec::new(),
        primary: primary.to_vec(),
        secondary: secondary.to_vec(),
    }
}

/// The bytes of a carrier with these contents.
#[must_use]
pub fn length(contents: &Contents) -> usize {
    HEADER + declared(contents)
}

#[must_use]
pub fn declared(contents: &Contents) -> usize {
    bits_needed(contents).div_ceil(8)
}

/// The scope's formula; it counts what can't be written too.
#[must_use]
pub fn bits_needed(contents: &Contents) -> usize {
    let payloads: usize = contents.payloads.iter().map(payload_bits).sum();
    let protection = contents.primary.len() + contents.secondary.len();
    5 + escape_bits(3, 7, contents.key_id) + payloads + 5 + 4 + 8 * protection
}

fn payload_bits(payload: &Payload) -> usize {
    let size = payload.body.len();
    let fields = settings_bits(&payload.settings) + field_bits(8, size as u64);
    5 + escape_bits(5, 31, payload.id) + fields + 8 * size
}

fn settings_bits(settings: &Settings) -> usize {
    let offset = settings.sample_offset.map_or(0, |_| 11 + 1);
    let duration = settings.duration.map_or(0, |value| field_bits(11, value));
    let group_id = settings.group_id.map_or(0, |value| field_bits(2, value));
    let codec = if settings.codec { 8 } else { 0 };
    let bits = [settings.aligned, settings.create, settings.remove];
    let bits = bits.into_iter().flatten().count();
    let priority = settings.priority.map_or(0, |_| 5);
    let processing = settings.processing.map_or(0, |_| 2);
    5 + offset + duration + group_id + codec + bits + priority + processing
}

/// The variable field after a base that is the escape.
fn escape_bits(width: usize, escape: u64, value: u64) -> usize {
    let above = value.checked_sub(escape);
    above.map_or(0, |above| field_bits(width, above))
}

fn field_bits(width: usize, value: u64) -> usize {
    (width + 1) * groups(width, value)
}

/// The smallest number of groups whose values reach this one.
fn groups(width: usize, value: u64) -> usize {
    let mut groups = 1;
    let mut values = 1_u128 << width;
    while u128::from(value) > values - 1 {
        groups += 1;
        values += 1 << (groups * width);
    }
    groups
}

#[must_use]
pub fn is_writable(contents: &Contents) -> bool {
    let mut payloads = contents.payloads.iter();
    payloads.all(|payload| payload.id > 0 && are_writable(&payload.settings))
        && [1, 4, 16].contains(&contents.primary.len())
        && [0, 1, 4, 16].contains(&contents.secondary.len())
}

#[must_use]
pub fn are_writable(settings: &Settings) -> bool {
    let up_to = |value: Option<u64>, most| value.is_none_or(|value| value <= most);
    up_to(settings.sample_offset, MOST_OFFSET)
        && up_to(settings.duration, MOST_DURATION)
        && up_to(settings.group_id, MOST_GROUP_ID)
        && up_to(settings.priority, MOST_PRIORITY)
        && up_to(settings.processing, MOST_PROCESSING)
        && are_present_by_rule(settings)
}

/// What discard, sample offset and aligned let be there is there, and nothing else.
fn are_present_by_rule(settings: &Settings) -> bool {
    let has_offset = settings.sample_offset.is_some();
    let is_aligned = settings.aligned == Some(true);
    let has_aligned = !settings.discard && !has_offset;
    let has_copies = has_aligned && is_aligned;
    let has_numbers = !settings.discard && (has_offset || is_aligned);
    settings.aligned.is_some() == has_aligned
        && settings.create.is_some() == has_copies
        && settings.remove.is_some() == has_copies
        && settings.priority.is_some() == has_numbers
        && settings.processing.is_some() == has_numbers
}

/// The bytes for settings.
#[must_use]
pub fn form(settings: &Settings) -> Vec<u8> {
    let words = carrier::settings(settings).into_iter();
    words.flat_map(u64::to_be_bytes).collect()
}

/// The settings that bytes of the form stand for, if what has one bit is 0 or 1.
#[must_use]
pub fn formed(bytes: &[u8]) -> Option<Settings> {
    let (words, _) = bytes.as_chunks();
    let words: &[[u8; 8]; SETTINGS_WORDS] = words.try_into().ok()?;
    if bytes.len() != FORM {
        return None;
    }
    let word = |place: usize| u64::from_be_bytes(words[place]);
    let value = |place| match [word(place), word(place + 1)] {
        [0, 0] => Some(None),
        [1, value] => Some(Some(value)),
        _ => None,
    };
    let bit = |value: u64| (value <= 1).then_some(value == 1);
    let optional_bit = |place| match value(place)? {
        None => Some(None),
        Some(value) => bit(value).map(Some),
    };
    Some(Settings {
        sample_offset: value(0)?,
        duration: value(2)?,
        group_id: value(4)?,
        codec: bit(word(6))?,
        discard: bit(word(7))?,
        aligned: optional_bit(8)?,
        create: optional_bit(10)?,
        remove: optional_bit(12)?,
        priority: value(14)?,
        processing: value(16)?,
    })
}

/// The edit, as it stands in a report.
impl fmt::Display for Edit<'_> {
    fn fmt(&self, formatter: &mut fmt::Formatter<'_>) -> fmt::Result {
        writeln!(formatter, "  call      emdf_{}", self.step.name())?;
        if self.step.has_source() {
            write_slice(formatter, "source", self.source)?;
        }
        write!(formatter, "{}", self.step)?;
        writeln!(formatter, "  room      {} bytes", self.destination)
    }
}

/// The step's arguments, as they stand in a report.
impl fmt::Display for Step {
    fn fmt(&self, formatter: &mut fmt::Formatter<'_>) -> fmt::Result {
        if let Some((place, _)) = self.place(0) {
            writeln!(formatter, "  place     {place}")?;
        }
        let [first, second] = self.slices();
        match self {
            Self::Body { .. } => write_slice(formatter, "body", first),
            Self::Settings { .. } => write_settings(formatter, first),
            Self::Drop { .. } => Ok(()),
            Self::Insert { id, .. } => {
                writeln!(formatter, "  id        {id}")?;
                write_settings(formatter, first)?;
                write_slice(formatter, "body", second)
            }
            Self::Key { key_id } => writeln!(formatter, "  key id    {key_id}"),
            Self::Protection { .. } => {
                write_slice(formatter, "primary", first)?;
                write_slice(formatter, "secondary", second)
            }
            Self::Blank { key_id, .. } => {
                writeln!(formatter, "  key id    {key_id}")?;
                write_slice(formatter, "primary", first)?;
                write_slice(formatter, "secondary", second)
            }
        }
    }
}

/// As numbers, where they are as many as they have to be.
fn write_settings(formatter: &mut fmt::Formatter<'_>, bytes: &[u8]) -> fmt::Result {
    if bytes.len() != FORM {
        return write_slice(formatter, "settings", bytes);
    }
    let (words, _) = bytes.as_chunks();
    let words = words
        .iter()
        .map(|word| u64::from_be_bytes(*word).to_string());
    let words: Vec<_> = words.collect();
    writeln!(formatter, "  settings  {}", words.join(" "))
}
