//! Steps to try on contents: edges of their arguments, random ones, and such as are refused.

use crate::contents::Settings;
use crate::plain::{self, Step, FORM};
use crate::random::Random;
use crate::shapes::{
    self, Numbers, IDS, KEY_IDS, MOST_DURATION, MOST_GROUP_ID, MOST_OFFSET, MOST_PRIORITY,
    MOST_PROCESSING, PRIMARIES, SECONDARIES,
};
use std::iter;

/// The edits, in the scope's order.
pub const KINDS: usize = 6;

/// The most that a protection's length is tried with, one past the longest that there is.
const MOST_PROTECTION: usize = 17;

/// The presences of settings: of all but codec and discard.
pub const PRESENCES: [usize; 8] = [0, 2, 4, 8, 10, 12, 14, 16];

/// The numbers of the form that have one bit and no presence.
const FLAGS: [usize; 2] = [6, 7];

/// The numbers of the form with a bit behind a presence.
const BITS: [usize; 3] = [9, 11, 13];

/// What a number of one bit must not be; the low bits of some are 0 or 1.
const NO_BITS: [u64; 6] = [2, 3, 256, 257, 1 << 32, u64::MAX];

/// Past what a number can be, by little and by much.
const PAST: [(usize, u64); 5] = [
    (1, MOST_OFFSET),
    (3, MOST_DURATION),
    (5, MOST_GROUP_ID),
    (15, MOST_PRIORITY),
    (17, MOST_PROCESSING),
];

/// One edit, by the place of its kind in 01, at this place, with arguments that can be written.
pub fn draw(kind: usize, place: usize, most_body: usize, random: &mut Random) -> Step {
    let payload = shapes::draw_payload(random, most_body);
    let settings = plain::form(&payload.settings);
    match kind {
        0 => Step::Body {
            place,
            body: payload.body,
        },
        1 => Step::Settings { place, settings },
        2 => Step::Drop { place },
        3 => Step::Insert {
            place,
            id: payload.id,
            settings,
            body: payload.body,
        },
        4 => Step::Key {
            key_id: shapes::edge_or_any(random, &KEY_IDS, u64::MAX),
        },
        _ => {
            let [primary, secondary] = draw_protections(random);
            Step::Protection { primary, secondary }
        }
    }
}

pub fn draw_protections(random: &mut Random) -> [Vec<u8>; 2] {
    let lengths = [random.pick(&PRIMARIES), random.pick(&SECONDARIES)];
    lengths.map(|length| random.bytes(length))
}

/// Each two lengths of the protections up to one past the longest.
pub fn every_protection_lengths() -> impl Iterator<Item = [usize; 2]> {
    let lengths = 0..=MOST_PROTECTION;
    lengths.flat_map(|primary| (0..=MOST_PROTECTION).map(move |secondary| [primary, secondary]))
}

/// Edges of ids and key ids, 0 among them, and the first numbers of each further group.
pub fn every_id() -> impl Iterator<Item = u64> {
    let powers = (0..64).map(|power| 1 << power);
    let groups = first_of_groups(5, 31).chain(first_of_groups(3, 7));
    let edges = [0, 3, u64::MAX];
    powers.chain(groups).chain(edges).chain(IDS).chain(KEY_IDS)
}

/// Group ids around each further group, and one that is too large.
pub fn every_group_id() -> impl Iterator<Item = u64> {
    first_of_groups(2, 0).flat_map(|first| [first - 1, first])
}

/// The first numbers that need a group more, after an escape base.
fn first_of_groups(width: u32, base: u64) -> impl Iterator<Item = u64> {
    let more = move |first: &u64| {
        let above = (first - base).checked_add(1)?.checked_mul(1 << width)?;
        above.checked_add(base)
    };
    iter::successors(Some(base + (1 << width)), more)
}

/// Every choice of presences, flags and one-bit values, by the settings rule or not.
pub fn every_form(random: &mut Random) -> Vec<Vec<u8>> {
    let bits = [None, Some(false), Some(true)];
    let mut all = Vec::new();
    for free in 0..1 << 7 {
        let numbers = Numbers::draw(random);
        let is_set = |place: usize| free >> place & 1 == 1;
        for choice in 0..27 {
            let settings = Settings {
                sample_offset: is_set(0).then_some(numbers.sample_offset),
                duration: is_set(1).then_some(numbers.duration),
                group_id: is_set(2).then_some(numbers.group_id),
                codec: is_set(3),
                discard: is_set(4),
                aligned: bits[choice % 3],
                create: bits[choice / 3 % 3],
                remove: bits[choice / 9],
                priority: is_set(5).then_some(numbers.priority),
                processing: is_set(6).then_some(numbers.processing),
            };
            all.push(plain::form(&settings));
        }
    }
    all
}

/// Settings that could be written, spoilt in each single way.
pub fn spoilt(settings: &Settings, random: &mut Random) -> Vec<Vec<u8>> {
    let form = plain::form(settings);
    let mut all: Vec<Vec<u8>> = past_their_most(&form).collect();
    for place in FLAGS {
        all.extend(NO_BITS.map(|value| with_words(&form, &[(place, value)])));
    }
    for place in BITS {
        all.extend(NO_BITS.map(|value| with_words(&form, &[(place - 1, 1), (place, value)])));
    }
    for place in PRESENCES {
        let value = random.pick(&[1, 2, 1 << 8, 1 << 63, u64::MAX]);
        all.push(with_words(&form, &[(place, 0), (place + 1, value)]));
        all.extend(NO_BITS.map(|presence| with_words(&form, &[(place, presence)])));
        all.extend(NO_BITS.map(|presence| with_words(&form, &[(place, presence), (place + 1, 0)])));
    }
    all.extend(other_lengths(&form, random));
    all
}

/// Settings spoilt in one way.
pub fn draw_spoilt(random: &mut Random) -> Vec<u8> {
    let form = plain::form(&shapes::draw_settings(random));
    let (past, most) = random.pick(&PAST);
    let presence = random.pick(&PRESENCES);
    let bit = random.pick(&BITS);
    let no_bit = random.pick(&NO_BITS);
    match random.up_to(5) {
        0 => with_words(&form, &[(past - 1, 1), (past, most + no_bit / 2)]),
        1 => with_words(&form, &[(random.pick(&FLAGS), no_bit)]),
        2 => with_words(&form, &[(bit - 1, 1), (bit, no_bit)]),
        3 => with_words(&form, &[(presence, 0), (presence + 1, no_bit)]),
        4 => with_words(&form, &[(presence, no_bit)]),
        _ => form[..random.up_to(FORM - 1)].to_vec(),
    }
}

/// Protections of which one has no code.
pub fn draw_spoilt_protections(random: &mut Random) -> [Vec<u8>; 2] {
    let [mut primary, mut secondary] = draw_protections(random);
    if random.one_in(2) {
        primary.resize(random.pick(&[0, 2, 3, 5, 8, 15, 17, 256, 260]), 0xa5);
    } else {
        secondary.resize(random.pick(&[2, 3, 5, 8, 15, 17, 256, 257]), 0x5a);
    }
    [primary, secondary]
}

/// The same edit, refused for its arguments; one that can't be is sent to a place too far.
pub fn spoil(step: Step, random: &mut Random) -> Step {
    match step {
        Step::Body { body, .. } => Step::Body {
            place: usize::MAX,
            body,
        },
        Step::Settings { place, .. } => Step::Settings {
            place,
            settings: draw_spoilt(random),
        },
        Step::Drop { .. } => Step::Drop { place: usize::MAX },
        Step::Insert {
            place,
            settings,
            body,
            ..
        } if random.one_in(2) => Step::Insert {
            place,
            id: 0,
            settings,
            body,
        },
        Step::Insert {
            place, id, body, ..
        } => Step::Insert {
            place,
            id,
            settings: draw_spoilt(random),
            body,
        },
        Step::Protection { .. } => {
            let [primary, secondary] = draw_spoilt_protections(random);
            Step::Protection { primary, secondary }
        }
        step => step,
    }
}

/// Numbers that are there, and too large for their field.
fn past_their_most(form: &[u8]) -> impl Iterator<Item = Vec<u8>> + '_ {
    PAST.into_iter().flat_map(|(place, most)| {
        let sizes = [
            most + 1,
            most + 2,
            most + (1 << 32),
            most | 1 << 63,
            u64::MAX,
        ];
        sizes.map(|value| with_words(form, &[(place - 1, 1), (place, value)]))
    })
}

/// Slices that are no settings for their length alone.
fn other_lengths(form: &[u8], random: &mut Random) -> impl Iterator<Item = Vec<u8>> {
    let mut longer = form.to_vec();
    longer.extend(random.bytes(FORM));
    let lengths = [0, 1, 8, FORM - 8, FORM - 1, FORM + 1, FORM + 8, 2 * FORM];
    let zeros = [FORM + 1, FORM + 8].map(|length| {
        let mut longer = form.to_vec();
        longer.resize(length, 0);
        longer
    });
    lengths
        .into_iter()
        .map(move |length| longer[..length].to_vec())
        .chain(zeros)
}

fn with_words(form: &[u8], words: &[(usize, u64)]) -> Vec<u8> {
    let mut bytes = form.to_vec();
    for (place, word) in words {
        bytes[8 * place..8 * (place + 1)].copy_from_slice(&word.to_be_bytes());
    }
    bytes
}

/// Some places of so many payloads, or all of few, then their count, one more and one far past it.
pub fn places(count: usize, most: usize, random: &mut Random) -> Vec<usize> {
    let far = [count + (1 << 8), count + (1 << 32), 1 << 63, usize::MAX];
    let past = [count, count + 1, random.pick(&far)];
    let some: Vec<usize> = if count <= most {
        (0..count).collect()
    } else {
        let drawn = iter::repeat_with(|| random.up_to(count - 1)).take(most);
        drawn.chain([0, count - 1]).collect()
    };
    some.into_iter().chain(past).collect()
}
