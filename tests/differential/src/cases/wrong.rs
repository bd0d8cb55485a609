//! Carriers with one thing wrong, and the refusals that the scope has for them.

use crate::carrier::{
    Found, Refusal, HEADER, HEADER_CUT, MOST_DECLARED, NO_PRIMARY, NO_SYNC_WORD, PADDING_NOT_ZERO,
    PADDING_TOO_LONG, RESERVED_NOT_ZERO, SYNC_WORD, TRUNCATED, VERSION_NOT_ZERO,
};
use crate::case::{TOO_FEW_BITS, TOO_MANY_GROUPS, VALUE_TOO_LARGE};
use crate::contents::{Bits, Contents, Settings};
use crate::damage;
use crate::random::Random;
use crate::shapes::{self, MOST_DURATION, MOST_GROUP_ID};
use crate::written::TOO_LARGE;
use std::iter;

/// The most that 31 groups of width 2 can say.
const MOST_IN_GROUPS: u128 = MOST_GROUP_ID as u128;

/// The most that two groups of width 8 can say.
const MOST_SIZE: u128 = 256 + 65_536 - 1;

/// A carrier and the refusal that the scope has for it.
pub struct Wrong {
    pub carrier: Vec<u8>,
    pub refusal: Refusal,
}

impl Wrong {
    fn new(carrier: Vec<u8>, number: u32, figures: [u64; 2]) -> Self {
        let refusal = Refusal::new(number, figures);
        Self { carrier, refusal }
    }

    /// Refused at the last of these bits, so whatever comes after them.
    fn at_the_end(mut bits: Bits, random: &mut Random, number: u32, figures: [u64; 2]) -> Self {
        let more = random.up_to(60);
        bits.0.extend((0..more).map(|_| random.one_in(2)));
        Self::new(bits.carrier(), number, figures)
    }
}

/// One thing wrong at a time, in contents with payloads that are else in order.
pub fn carriers(contents: &Contents, random: &mut Random) -> Vec<Wrong> {
    let mut all = header(contents, random);
    all.extend(reserved(contents, random));
    all.extend(ending(contents, random));
    all.extend(missing_octets(contents, random));
    all.extend(numbers(contents, random));
    all
}

/// A key id and a payload id whose fields fit, but not with their escape base added.
pub fn sums_with_base(contents: &Contents, random: &mut Random) -> [Wrong; 2] {
    let mut key = Bits::default();
    key.version(0);
    key.key_id(TOO_LARGE + random.up_to(6) as u128);
    let mut id = up_to_an_id(contents);
    id.id(TOO_LARGE + random.up_to(30) as u128);
    [key, id].map(|bits| Wrong::at_the_end(bits, random, VALUE_TOO_LARGE, [0, 0]))
}

/// Another sync word, more bytes declared than there are, and fewer than a header; some of these
/// two with the same figures.
fn header(contents: &Contents, random: &mut Random) -> Vec<Wrong> {
    let (carrier, _) = contents.written();
    let container = (carrier.len() - HEADER) as u64;
    let flipped = SYNC_WORD ^ 1 << random.up_to(15);
    let mut other_word = carrier.clone();
    other_word[..2].copy_from_slice(&flipped.to_be_bytes());
    let mut all = vec![Wrong::new(
        other_word,
        NO_SYNC_WORD,
        [u64::from(flipped), 0],
    )];
    for declared in [container + 1, MOST_DECLARED as u64] {
        let mut longer = carrier.clone();
        longer[2..HEADER].copy_from_slice(&(declared as u16).to_be_bytes());
        all.push(Wrong::new(longer, TRUNCATED, [declared, container]));
    }
    for there in 0..HEADER {
        let cut = carrier[..there].to_vec();
        all.push(Wrong::new(cut, HEADER_CUT, [4, there as u64]));
        let mut declaring = carrier[..HEADER + there].to_vec();
        declaring[2..HEADER].copy_from_slice(&4_u16.to_be_bytes());
        all.push(Wrong::new(declaring, TRUNCATED, [4, there as u64]));
    }
    all
}

/// A reserved bit that is set, in each payload that has some.
fn reserved(contents: &Contents, random: &mut Random) -> Vec<Wrong> {
    let (carrier, found) = contents.written();
    let mut all = Vec::new();
    for (payload, spans) in contents.payloads.iter().zip(&found.spans) {
        let settings = &payload.settings;
        if settings.sample_offset.is_some() {
            // After the flag and 11 bits.
            all.push(spans.settings.start + 12);
        }
        if settings.codec {
            all.push(spans.settings.end - after_codec(settings) - 1 - random.up_to(7));
        }
    }
    all.into_iter()
        .map(|bit| Wrong::new(flipped(&carrier, bit), RESERVED_NOT_ZERO, [0, 0]))
        .collect()
}

/// The bits of the settings after the codec's octet.
fn after_codec(settings: &Settings) -> usize {
    let bits = [settings.aligned, settings.create, settings.remove];
    let numbers = if settings.priority.is_some() { 7 } else { 0 };
    1 + bits.into_iter().flatten().count() + numbers
}

/// No primary protection, bytes between protection and end, and padding that is not zero.
fn ending(contents: &Contents, random: &mut Random) -> Vec<Wrong> {
    let (bits, _) = contents.bits();
    let (carrier, Found { consumed, .. }) = contents.written();
    let protection = contents.primary.len() + contents.secondary.len();
    let used = 8 * HEADER + bits.length();
    let codes = used - 8 * protection - 4;
    let mut without = carrier.clone();
    for bit in [codes, codes + 1] {
        without[bit / 8] &= !(0x80 >> (bit % 8));
    }
    let padding = 8 * consumed - used;
    let mut all = vec![Wrong::new(without, NO_PRIMARY, [0, 0])];
    if padding > 0 {
        let bit = used + random.up_to(padding - 1);
        all.push(Wrong::new(flipped(&carrier, bit), PADDING_NOT_ZERO, [0, 0]));
    }
    for more in [1, 2, 3 + random.up_to(40)] {
        // Its length is asked first, so its bits are none of the question.
        let mut longer = carrier.clone();
        longer.extend(random.bytes(more));
        let declared = (longer.len() - HEADER) as u16;
        longer[2..HEADER].copy_from_slice(&declared.to_be_bytes());
        let figures = [(padding + 8 * more) as u64, 0];
        all.push(Wrong::new(longer, PADDING_TOO_LONG, figures));
    }
    all
}

/// A container that ends in each of its bodies and in its protection, all of it read in octets.
fn missing_octets(contents: &Contents, random: &mut Random) -> Vec<Wrong> {
    let (bits, spans) = contents.bits();
    let used = 8 * HEADER + bits.length();
    let protection = 8 * (contents.primary.len() + contents.secondary.len());
    let bodies = spans.into_iter().map(|spans| spans.body);
    let mut all = Vec::new();
    for octets in bodies.chain(iter::once(used - protection..used)) {
        let first_end = octets.start.div_ceil(8);
        let last_end = octets.end.div_ceil(8);
        if first_end == last_end {
            continue;
        }
        let end = first_end + random.up_to(last_end - first_end - 1);
        let mut cut = contents.written().0;
        cut.truncate(end);
        cut[2..HEADER].copy_from_slice(&((end - HEADER) as u16).to_be_bytes());
        let left = (8 * end - octets.start) % 8;
        all.push(Wrong::new(cut, TOO_FEW_BITS, [8, left as u64]));
    }
    all
}

/// A number above what its field may say, after contents that are in order.
fn numbers(contents: &Contents, random: &mut Random) -> Vec<Wrong> {
    let mut all = Vec::new();
    for version in [
        1,
        2,
        3,
        4,
        6,
        7,
        1 + below(random, MOST_IN_GROUPS),
        3 + MOST_IN_GROUPS,
    ] {
        let mut bits = Bits::default();
        bits.version(version);
        all.push(Wrong::at_the_end(
            bits,
            random,
            VERSION_NOT_ZERO,
            [version as u64, 0],
        ));
    }
    let too_many = above(random, MOST_IN_GROUPS);
    let mut bits = Bits::default();
    bits.version(3 + too_many);
    all.push(Wrong::at_the_end(bits, random, TOO_MANY_GROUPS, [2, 31]));

    let mut bits = Bits::default();
    bits.version(0);
    bits.key_id(above(random, TOO_LARGE - 1));
    all.push(Wrong::at_the_end(bits, random, VALUE_TOO_LARGE, [0, 0]));

    let mut bits = up_to_an_id(contents);
    bits.id(above(random, TOO_LARGE - 1));
    all.push(Wrong::at_the_end(bits, random, VALUE_TOO_LARGE, [0, 0]));

    let mut bits = up_to_an_id(contents);
    bits.id(1);
    bits.flag(false);
    bits.optional_field(11, Some(above(random, u128::from(MOST_DURATION))));
    all.push(Wrong::at_the_end(bits, random, TOO_MANY_GROUPS, [11, 2]));

    let mut bits = up_to_an_id(contents);
    bits.id(1);
    bits.flag(false);
    bits.flag(false);
    bits.optional_field(2, Some(above(random, MOST_IN_GROUPS)));
    all.push(Wrong::at_the_end(bits, random, TOO_MANY_GROUPS, [2, 31]));

    let mut bits = up_to_an_id(contents);
    bits.id(1);
    bits.settings(&shapes::draw_settings(random));
    bits.size(above(random, MOST_SIZE));
    all.push(Wrong::at_the_end(bits, random, TOO_MANY_GROUPS, [8, 2]));
    all
}

/// All payloads of the contents, and then where the next one's id or the end mark stands.
fn up_to_an_id(contents: &Contents) -> Bits {
    let (mut bits, spans) = contents.bits();
    let last = spans.last().expect("contents with payloads");
    bits.0.truncate(last.body.end - 8 * HEADER);
    bits
}

/// The next number, one a little above, or any of up to twice as many bits.
fn above(random: &mut Random, most: u128) -> u128 {
    match random.up_to(2) {
        0 => most + 1,
        1 => most + 2 + random.up_to(70) as u128,
        _ => most + 1 + below(random, most),
    }
}

fn below(random: &mut Random, most: u128) -> u128 {
    (u128::from(random.word()) << 64 | u128::from(random.word())) % most
}

fn flipped(carrier: &[u8], bit: usize) -> Vec<u8> {
    let mut bytes = carrier.to_vec();
    damage::flip(&mut bytes, bit);
    bytes
}
