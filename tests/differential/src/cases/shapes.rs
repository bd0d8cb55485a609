//! Contents of every shape: edge values, random ones, and each combination of settings.

use crate::carrier::MOST_DECLARED;
use crate::contents::{Contents, Payload, Settings};
use crate::random::Random;

pub const MOST_OFFSET: u64 = 2_047;
pub const MOST_DURATION: u64 = 4_196_351;
pub const MOST_GROUP_ID: u64 = 6_148_914_691_236_517_203;
pub const MOST_PRIORITY: u64 = 31;
pub const MOST_PROCESSING: u64 = 3;

/// On both sides of each change in the number of groups up to three, and at both ends.
pub const IDS: [u64; 14] = [
    1,
    2,
    11,
    14,
    30,
    31,
    32,
    62,
    63,
    64,
    1_086,
    1_087,
    1 << 32,
    u64::MAX,
];
pub const KEY_IDS: [u64; 13] = [
    0,
    1,
    6,
    7,
    8,
    14,
    15,
    78,
    79,
    1 << 32,
    1 << 63,
    u64::MAX - 7,
    u64::MAX,
];
pub const OFFSETS: [u64; 4] = [0, 1, 1_024, MOST_OFFSET];
pub const DURATIONS: [u64; 6] = [0, 1, 2_047, 2_048, MOST_DURATION - 1, MOST_DURATION];
pub const GROUP_IDS: [u64; 9] = [
    0,
    3,
    4,
    19,
    20,
    83,
    1 << 32,
    MOST_GROUP_ID - 1,
    MOST_GROUP_ID,
];
pub const SIZES: [usize; 6] = [0, 1, 2, 255, 256, 257];
pub const PRIMARIES: [usize; 3] = [1, 4, 16];
pub const SECONDARIES: [usize; 4] = [0, 1, 4, 16];

/// Three free choices, and eight ways to end the settings.
pub const SHAPES: usize = 8 * ENDINGS;
const ENDINGS: usize = 8;

/// The values of those settings that have more than one bit.
#[derive(Clone, Copy, Debug)]
pub struct Numbers {
    pub sample_offset: u64,
    pub duration: u64,
    pub group_id: u64,
    pub priority: u64,
    pub processing: u64,
}

impl Numbers {
    pub fn draw(random: &mut Random) -> Self {
        Self {
            sample_offset: edge_or_any(random, &OFFSETS, MOST_OFFSET),
            duration: edge_or_any(random, &DURATIONS, MOST_DURATION),
            group_id: edge_or_any(random, &GROUP_IDS, MOST_GROUP_ID),
            priority: edge_or_any(random, &[0, MOST_PRIORITY], MOST_PRIORITY),
            processing: edge_or_any(random, &[0, MOST_PROCESSING], MOST_PROCESSING),
        }
    }
}

/// One of the combinations of presences and one-bit values that the settings rule allows.
#[must_use]
pub fn settings(shape: usize, numbers: &Numbers) -> Settings {
    let is_set = |place: usize| shape >> place & 1 == 1;
    let mut settings = Settings {
        duration: is_set(0).then_some(numbers.duration),
        group_id: is_set(1).then_some(numbers.group_id),
        codec: is_set(2),
        ..Settings::default()
    };
    match shape / 8 {
        0 => settings.discard = true,
        1 => {
            settings.discard = true;
            settings.sample_offset = Some(numbers.sample_offset);
        }
        2 => settings.sample_offset = Some(numbers.sample_offset),
        3 => settings.aligned = Some(false),
        _ => {
            settings.aligned = Some(true);
            settings.create = Some(is_set(3));
            settings.remove = Some(is_set(4));
        }
    }
    if !settings.discard && settings.aligned != Some(false) {
        settings.priority = Some(numbers.priority);
        settings.processing = Some(numbers.processing);
    }
    settings
}

/// Which of the combinations these settings are.
#[must_use]
pub fn shape(settings: &Settings) -> usize {
    let ending = match (settings.discard, settings.sample_offset, settings.aligned) {
        (true, None, _) => 0,
        (true, Some(_), _) => 1,
        (false, Some(_), _) => 2,
        (false, None, Some(true)) => {
            let place = |bit: Option<bool>| usize::from(bit == Some(true));
            4 + place(settings.create) + 2 * place(settings.remove)
        }
        (false, None, _) => 3,
    };
    let flags = [
        settings.duration.is_some(),
        settings.group_id.is_some(),
        settings.codec,
    ];
    let [duration, group_id, codec] = flags.map(usize::from);
    8 * ending + 4 * codec + 2 * group_id + duration
}

pub fn draw_settings(random: &mut Random) -> Settings {
    let shape = random.up_to(SHAPES - 1);
    settings(shape, &Numbers::draw(random))
}

pub fn draw_payload(random: &mut Random, most_body: usize) -> Payload {
    let size = random.up_to(most_body);
    Payload {
        id: edge_or_any(random, &IDS, u64::MAX).max(1),
        settings: draw_settings(random),
        body: random.bytes(size),
    }
}

pub fn draw_contents(random: &mut Random, payloads: usize, most_body: usize) -> Contents {
    let primary = random.pick(&PRIMARIES);
    let secondary = random.pick(&SECONDARIES);
    Contents {
        key_id: edge_or_any(random, &KEY_IDS, u64::MAX),
        payloads: (0..payloads)
            .map(|_| draw_payload(random, most_body))
            .collect(),
        primary: random.bytes(primary),
        secondary: random.bytes(secondary),
    }
}

/// Gives the last body the size with which so many bytes are declared, if it is above 255.
///
/// # Panics
///
/// Where there is no payload.
pub fn fill(contents: &mut Contents, declared: usize) {
    assert!(declared <= MOST_DECLARED);
    let last = contents.payloads.len() - 1;
    contents.payloads[last].body.clear();
    let empty = contents.bits().0.length();
    // A size from 256 on has a second group, of 9 bits.
    let spare = (8 * declared).saturating_sub(empty);
    let size = if spare < 8 * 256 {
        spare / 8
    } else {
        (spare - 9) / 8
    };
    contents.payloads[last].body = (0..size)
        .map(|place| (place * 151 + place / 251) as u8)
        .collect();
}

/// An edge in half of the cases, else a number of any length in bits.
pub fn edge_or_any(random: &mut Random, edges: &[u64], most: u64) -> u64 {
    if random.one_in(2) {
        return random.pick(edges);
    }
    let drawn = random.word() >> random.up_to(63);
    if drawn <= most {
        drawn
    } else {
        drawn % most
    }
}
