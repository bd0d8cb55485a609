//! The groups for reading and classifying carriers.

use crate::examine::{
    Examiner, MALFORMED, NON_EMDF, PARSED, RAREST_FIELD, RAREST_SETTINGS, TRAILING_DATA,
};
use crate::report::{Difference, Group, Outcome, Tally};
use differential::carrier::{
    A, HEADER_CUT, MOST_DECLARED, NO_PRIMARY, NO_SYNC_WORD, PADDING_NOT_ZERO, PADDING_TOO_LONG,
    RESERVED_NOT_ZERO, SYNC_WORD, TABLE_TOO_SHORT, TRUNCATED, VERSION_NOT_ZERO,
};
use differential::case::{ACCEPTED, TOO_FEW_BITS, TOO_MANY_GROUPS, VALUE_TOO_LARGE};
use differential::contents::{Contents, Payload, Settings};
use differential::damage;
use differential::groups::FIELDS;
use differential::options::Length;
use differential::random::Random;
use differential::shapes::{
    self, Numbers, DURATIONS, GROUP_IDS, IDS, KEY_IDS, MOST_DURATION, OFFSETS, PRIMARIES,
    SECONDARIES, SHAPES, SIZES,
};
use differential::wrong;

pub const GROUPS: [Group; 5] = [
    Group {
        name: "every short carrier",
        least: 100,
        outcomes: &[
            ("classify", ACCEPTED),
            ("classify", HEADER_CUT),
            ("classify", TRUNCATED),
            ("classify", TOO_FEW_BITS),
            ("classify", VERSION_NOT_ZERO),
            ("classify", RESERVED_NOT_ZERO),
            ("classify", NO_PRIMARY),
            ("classify", PADDING_NOT_ZERO),
            ("read", ACCEPTED),
            ("read", HEADER_CUT),
            ("read", TRUNCATED),
            ("read", NO_SYNC_WORD),
            ("read", TOO_FEW_BITS),
            ("read", VERSION_NOT_ZERO),
            ("read", RESERVED_NOT_ZERO),
            ("read", NO_PRIMARY),
            ("read", PADDING_NOT_ZERO),
        ],
        marks: &[NON_EMDF, PARSED, TRAILING_DATA, MALFORMED],
        run: short_carriers,
    },
    Group {
        name: "carriers written from their contents",
        least: 100,
        outcomes: &[
            ("classify", ACCEPTED),
            ("read", ACCEPTED),
            ("read", TABLE_TOO_SHORT),
            ("parse_emdf_sync", ACCEPTED),
            ("parse_emdf_sync_with_bit_trace", ACCEPTED),
            ("parse_emdf_sync_with_bit_trace", TABLE_TOO_SHORT),
        ],
        marks: &[PARSED, TRAILING_DATA, RAREST_SETTINGS, RAREST_FIELD],
        run: written_carriers,
    },
    Group {
        name: "carriers with one thing wrong",
        least: 100,
        outcomes: EVERY_REFUSAL,
        marks: &[NON_EMDF, MALFORMED, SUM_WITH_BASE],
        run: wrong_carriers,
    },
    Group {
        name: "damaged carriers",
        least: 100,
        outcomes: &EVERY_OUTCOME,
        marks: &[NON_EMDF, PARSED, TRAILING_DATA, MALFORMED, RAREST_SETTINGS],
        run: damaged_carriers,
    },
    Group {
        name: "random bits after a good header",
        least: 100,
        outcomes: INSIDE_A_CONTAINER,
        marks: &[PARSED, TRAILING_DATA, MALFORMED],
        run: random_containers,
    },
];

/// A reading's widths and bounds are fixed, so there is no 4 and no 5.
const EVERY_OUTCOME: [Outcome; 49] = [
    ("classify", ACCEPTED),
    ("read", ACCEPTED),
    ("read", TABLE_TOO_SHORT),
    ("parse_emdf_sync", ACCEPTED),
    ("parse_emdf_sync_with_bit_trace", ACCEPTED),
    ("parse_emdf_sync_with_bit_trace", TABLE_TOO_SHORT),
    ("read", NO_SYNC_WORD),
    ("read", HEADER_CUT),
    ("classify", HEADER_CUT),
    ("read", TRUNCATED),
    ("classify", TRUNCATED),
    ("parse_emdf_sync", NO_SYNC_WORD),
    ("parse_emdf_sync_with_bit_trace", NO_SYNC_WORD),
    ("parse_emdf_sync", HEADER_CUT),
    ("parse_emdf_sync_with_bit_trace", HEADER_CUT),
    ("parse_emdf_sync", TRUNCATED),
    ("parse_emdf_sync_with_bit_trace", TRUNCATED),
    ("classify", TOO_FEW_BITS),
    ("read", TOO_FEW_BITS),
    ("parse_emdf_sync", TOO_FEW_BITS),
    ("parse_emdf_sync_with_bit_trace", TOO_FEW_BITS),
    ("classify", TOO_MANY_GROUPS),
    ("read", TOO_MANY_GROUPS),
    ("parse_emdf_sync", TOO_MANY_GROUPS),
    ("parse_emdf_sync_with_bit_trace", TOO_MANY_GROUPS),
    ("classify", VALUE_TOO_LARGE),
    ("read", VALUE_TOO_LARGE),
    ("parse_emdf_sync", VALUE_TOO_LARGE),
    ("parse_emdf_sync_with_bit_trace", VALUE_TOO_LARGE),
    ("classify", VERSION_NOT_ZERO),
    ("read", VERSION_NOT_ZERO),
    ("parse_emdf_sync", VERSION_NOT_ZERO),
    ("parse_emdf_sync_with_bit_trace", VERSION_NOT_ZERO),
    ("classify", RESERVED_NOT_ZERO),
    ("read", RESERVED_NOT_ZERO),
    ("parse_emdf_sync", RESERVED_NOT_ZERO),
    ("parse_emdf_sync_with_bit_trace", RESERVED_NOT_ZERO),
    ("classify", NO_PRIMARY),
    ("read", NO_PRIMARY),
    ("parse_emdf_sync", NO_PRIMARY),
    ("parse_emdf_sync_with_bit_trace", NO_PRIMARY),
    ("classify", PADDING_TOO_LONG),
    ("read", PADDING_TOO_LONG),
    ("parse_emdf_sync", PADDING_TOO_LONG),
    ("parse_emdf_sync_with_bit_trace", PADDING_TOO_LONG),
    ("classify", PADDING_NOT_ZERO),
    ("read", PADDING_NOT_ZERO),
    ("parse_emdf_sync", PADDING_NOT_ZERO),
    ("parse_emdf_sync_with_bit_trace", PADDING_NOT_ZERO),
];

/// All but the first six.
const EVERY_REFUSAL: &[Outcome] = EVERY_OUTCOME.split_at(6).1;

/// All but what only a table or a header gives.
const INSIDE_A_CONTAINER: &[Outcome] = EVERY_OUTCOME.split_at(17).1;

/// A field that fits, but not with its escape base added.
const SUM_WITH_BASE: &str = "sum-with-base";

/// The last bytes that a short run tries after each two others; most leave padding of zeros.
const THIRD_BYTES: [u8; 9] = [0x00, 0x04, 0x58, 0x80, 0x94, 0xfc, 0x01, 0x02, 0xff];

fn short_carriers(tally: &mut Tally, _: &mut Random, length: Length) -> Result<(), Difference> {
    let mut examiner = Examiner::new();
    examiner.check(&[], tally)?;
    for byte in 0..=u8::MAX {
        examiner.check(&[byte], tally)?;
        let [first, second] = SYNC_WORD.to_be_bytes();
        examiner.check(&[first, second, byte], tally)?;
    }
    for word in 0..=u16::MAX {
        for end in [2, 3, 4, A.len()] {
            let mut carrier = A[..end].to_vec();
            carrier[..2].copy_from_slice(&word.to_be_bytes());
            examiner.check(&carrier, tally)?;
        }
    }
    every_container(&mut examiner, tally, length)
}

/// Containers of up to 3 bytes.
fn every_container(
    examiner: &mut Examiner,
    tally: &mut Tally,
    length: Length,
) -> Result<(), Difference> {
    around(&[], examiner, tally)?;
    for first in 0..=u8::MAX {
        around(&[first], examiner, tally)?;
        for second in 0..=u8::MAX {
            around(&[first, second], examiner, tally)?;
            for third in THIRD_BYTES {
                around(&[first, second, third], examiner, tally)?;
            }
        }
    }
    if length == Length::Long {
        for container in 0..1 << 24 {
            let [_, container @ ..] = u32::to_be_bytes(container);
            examiner.check(&carrier(3, &container), tally)?;
        }
    }
    Ok(())
}

/// A container with as many bytes as are declared, with one more, and with one fewer.
fn around(container: &[u8], examiner: &mut Examiner, tally: &mut Tally) -> Result<(), Difference> {
    let declared = container.len() as u16;
    let truly = carrier(declared, container);
    examiner.check(&truly, tally)?;
    examiner.check(&[&truly[..], &[0x5a]].concat(), tally)?;
    if let [fewer @ .., _] = container {
        examiner.check(&carrier(declared, fewer), tally)?;
    }
    Ok(())
}

fn carrier(declared: u16, container: &[u8]) -> Vec<u8> {
    let header = [SYNC_WORD, declared].map(u16::to_be_bytes);
    [header.as_flattened(), container].concat()
}

fn written_carriers(
    tally: &mut Tally,
    random: &mut Random,
    length: Length,
) -> Result<(), Difference> {
    let mut examiner = Examiner::new();
    for _ in 0..length.rounds(60, 600) {
        for contents in each_field(random) {
            written(&contents, &mut examiner, tally, random)?;
        }
    }
    for contents in edges(random) {
        written(&contents, &mut examiner, tally, random)?;
    }
    for _ in 0..length.rounds(60, 600) {
        for shape in 0..SHAPES {
            let mut contents = shapes::draw_contents(random, 1, 20);
            let numbers = Numbers::draw(random);
            contents.payloads[0].settings = shapes::settings(shape, &numbers);
            written(&contents, &mut examiner, tally, random)?;
        }
        for _ in 0..100 {
            let payloads = random.up_to(6);
            let most_body = random.pick(&[0, 8, 40, 300]);
            let contents = shapes::draw_contents(random, payloads, most_body);
            written(&contents, &mut examiner, tally, random)?;
        }
        for contents in long(random) {
            written(&contents, &mut examiner, tally, random)?;
        }
    }
    for _ in 0..length.rounds(4, 20) {
        for contents in longest(random) {
            written(&contents, &mut examiner, tally, random)?;
        }
    }
    examiner.mark_settings(tally);
    examiner.mark_fields(tally);
    Ok(())
}

/// The carrier alone, and with bytes after it, which change nothing in a reading.
fn written(
    contents: &Contents,
    examiner: &mut Examiner,
    tally: &mut Tally,
    random: &mut Random,
) -> Result<(), Difference> {
    let (mut carrier, found) = contents.written();
    let ruled = Ok(found);
    examiner.check_with_rule(&carrier, &ruled, tally)?;
    for more in [1, random.up_to(40)] {
        carrier.extend(random.bytes(more));
        examiner.check_with_rule(&carrier, &ruled, tally)?;
    }
    Ok(())
}

/// Each variable field of more than one group where no other has more than one.
fn each_field(random: &mut Random) -> [Contents; FIELDS] {
    let mut all = std::array::from_fn(|_| with_single_groups(random));
    let [of_key, of_id, of_duration, of_group_id, of_size] = &mut all;
    let place = random.up_to(1);
    of_key.key_id = 7 + 8 + (random.word() >> (1 + random.up_to(62)));
    of_id.payloads[place].id = 31 + 32 + (random.word() >> (1 + random.up_to(62)));
    let duration = 2_048 + random.up_to(MOST_DURATION as usize - 2_048) as u64;
    of_duration.payloads[place].settings.duration = Some(duration);
    let group_id = 4 + (random.word() >> (2 + random.up_to(61)));
    of_group_id.payloads[place].settings.group_id = Some(group_id);
    let size = 256 + random.up_to(600);
    of_size.payloads[place].body = random.bytes(size);
    all
}

/// Two payloads, and no field of two groups.
fn with_single_groups(random: &mut Random) -> Contents {
    let mut contents = shapes::draw_contents(random, 2, 20);
    contents.key_id = random.up_to(14) as u64;
    for payload in &mut contents.payloads {
        payload.id = 1 + random.up_to(61) as u64;
        let settings = &mut payload.settings;
        settings.duration = settings.duration.map(|duration| duration % 2_048);
        settings.group_id = settings.group_id.map(|group_id| group_id % 4);
    }
    contents
}

/// Every edge value in every combination of settings that has it, and the edges of the rest.
pub fn edges(random: &mut Random) -> Vec<Contents> {
    let mut all = Vec::new();
    for shape in 0..SHAPES {
        all.extend(edge_settings(shape, random).into_iter().map(|settings| {
            let mut contents = shapes::draw_contents(random, 1, 3);
            contents.payloads[0].settings = settings;
            contents
        }));
    }
    for key_id in KEY_IDS {
        for id in IDS {
            let mut contents = shapes::draw_contents(random, 2, 3);
            contents.key_id = key_id;
            contents.payloads[1].id = id;
            all.push(contents);
        }
    }
    for size in SIZES.into_iter().chain([1_000, 4_095, 10_007]) {
        for _ in 0..16 {
            let mut contents = shapes::draw_contents(random, 2, 3);
            contents.payloads[0].body = random.bytes(size);
            all.push(contents);
        }
    }
    for primary in PRIMARIES {
        for secondary in SECONDARIES {
            for fill in [0x00, 0xff, 0x80] {
                let mut contents = shapes::draw_contents(random, 1, 3);
                contents.primary = vec![fill; primary];
                contents.secondary = vec![!fill; secondary];
                all.push(contents);
            }
        }
    }
    all
}

/// One combination of settings, with each edge of each number that stands in it.
pub fn edge_settings(shape: usize, random: &mut Random) -> Vec<Settings> {
    let settings = shapes::settings(shape, &Numbers::draw(random));
    let edges = |setting: Option<u64>, edges: &[u64]| match setting {
        Some(_) => edges.iter().copied().map(Some).collect(),
        None => vec![None],
    };
    let mut all = Vec::new();
    for sample_offset in edges(settings.sample_offset, &OFFSETS) {
        for duration in edges(settings.duration, &DURATIONS) {
            for group_id in edges(settings.group_id, &GROUP_IDS) {
                for priority in edges(settings.priority, &[0, 1, 31]) {
                    all.push(Settings {
                        sample_offset,
                        duration,
                        group_id,
                        priority,
                        ..settings
                    });
                }
            }
        }
    }
    all
}

/// Hundreds of payloads, and bodies of thousands of bytes.
pub fn long(random: &mut Random) -> [Contents; 4] {
    let many = 100 + random.up_to(500);
    let mut filled = shapes::draw_contents(random, 3, 200);
    shapes::fill(&mut filled, 300 + random.up_to(6_000));
    [
        shapes::draw_contents(random, many, 8),
        shapes::draw_contents(random, 512, 0),
        shapes::draw_contents(random, 4, 3_000),
        filled,
    ]
}

/// As many bytes as can be declared, or one fewer, and as many payloads as they can hold.
pub fn longest(random: &mut Random) -> Vec<Contents> {
    let mut all = Vec::new();
    for declared in [MOST_DECLARED, MOST_DECLARED - 1] {
        for payloads in [1, 2, 40, 700] {
            let mut contents = shapes::draw_contents(random, payloads, 20);
            shapes::fill(&mut contents, declared);
            assert_eq!(contents.bits().0.length().div_ceil(8), declared);
            all.push(contents);
        }
    }
    all.push(most_payloads(random));
    all
}

/// Payloads of the fewest bits, and as many as there is room for; their ids may be any up to 30.
pub fn most_payloads(random: &mut Random) -> Contents {
    let mut contents = shapes::draw_contents(random, 1, 0);
    contents.payloads[0] = Payload {
        id: 1 + random.up_to(29) as u64,
        settings: Settings::LEAST,
        body: Vec::new(),
    };
    let (bits, spans) = contents.bits();
    let payload = spans[0].body.end - spans[0].id.start;
    let more = (8 * MOST_DECLARED - bits.length()) / payload;
    let one = contents.payloads[0].clone();
    contents.payloads.resize(1 + more, one);
    contents
}

fn wrong_carriers(
    tally: &mut Tally,
    random: &mut Random,
    length: Length,
) -> Result<(), Difference> {
    let mut examiner = Examiner::new();
    for _ in 0..length.rounds(8_000, 80_000) {
        let payloads = 1 + random.up_to(3);
        let contents = shapes::draw_contents(random, payloads, 12);
        for wrong in wrong::carriers(&contents, random) {
            examiner.check_with_rule(&wrong.carrier, &Err(wrong.refusal), tally)?;
        }
        for wrong in wrong::sums_with_base(&contents, random) {
            examiner.check_with_rule(&wrong.carrier, &Err(wrong.refusal), tally)?;
            tally.mark(SUM_WITH_BASE);
        }
    }
    Ok(())
}

fn damaged_carriers(
    tally: &mut Tally,
    random: &mut Random,
    length: Length,
) -> Result<(), Difference> {
    let mut examiner = Examiner::new();
    for _ in 0..length.rounds(1_000, 12_000) {
        let payloads = random.up_to(3);
        let (carrier, _) = shapes::draw_contents(random, payloads, 5).written();
        for damaged in damage::small(&carrier, random) {
            examiner.check(&damaged, tally)?;
        }
        for _ in 0..100 {
            let changes = 2 + random.up_to(3);
            examiner.check(&damage::flipped(&carrier, changes, random), tally)?;
        }
    }
    for _ in 0..length.rounds(1_000, 12_000) {
        let payloads = random.up_to(30);
        let most_body = random.pick(&[10, 60, 300]);
        let (carrier, _) = shapes::draw_contents(random, payloads, most_body).written();
        for _ in 0..10 {
            examiner.check(&damage::changed_bytes(&carrier, random), tally)?;
            let changes = 1 + random.up_to(2);
            examiner.check(&damage::flipped(&carrier, changes, random), tally)?;
        }
    }
    examiner.mark_settings(tally);
    Ok(())
}

fn random_containers(
    tally: &mut Tally,
    random: &mut Random,
    length: Length,
) -> Result<(), Difference> {
    let mut examiner = Examiner::new();
    for _ in 0..length.rounds(600_000, 8_000_000) {
        let most_bits = random.pick(&[60, 200, 500]);
        let mut carrier = damage::random_container(random, most_bits);
        if random.one_in(8) {
            carrier.push(random.word() as u8);
        }
        examiner.check(&carrier, tally)?;
    }
    Ok(())
}
