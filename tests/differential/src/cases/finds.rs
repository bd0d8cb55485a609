//! Contents in which ids repeat, and ids and ordinals to look for in them.

use crate::carrier::MOST_DECLARED;
use crate::contents::{Contents, Payload, Settings};
use crate::ordinals;
use crate::random::Random;
use crate::shapes::{self, IDS};

/// An id and an ordinal.
pub type Named = (u64, u64);

/// The first id that has the escape.
pub const FIRST_ESCAPED: u64 = 31;

/// What ids of one kind differ by: so low bits, or high ones, are the same in all of them.
const DISTANCES: [u64; 8] = [1, 2, 32, 256, 512, 1 << 16, 1 << 32, 1 << 60];

/// The most names of one carrier that are looked for.
const MOST_HELD: usize = 60;

/// Payloads of a few ids, or of many that are near each other or the same in their low bits.
pub fn repeating(random: &mut Random, payloads: usize, most_body: usize) -> Contents {
    let mut contents = shapes::draw_contents(random, payloads, most_body);
    let first = random.pick(&IDS);
    let distance = random.pick(&DISTANCES);
    let most = random.pick(&[0, 1, 2, 5, payloads]);
    for payload in &mut contents.payloads {
        let steps = random.up_to(most) as u64;
        payload.id = first.wrapping_add(steps.wrapping_mul(distance)).max(1);
    }
    contents
}

/// Payloads of the fewest bits besides their ids, which these are.
#[must_use]
pub fn with_ids(ids: impl Iterator<Item = u64>) -> Contents {
    let payload = |id| Payload {
        id,
        settings: Settings::LEAST,
        body: Vec::new(),
    };
    Contents {
        key_id: 0,
        payloads: ids.map(payload).collect(),
        primary: vec![0xa5],
        secondary: Vec::new(),
    }
}

/// As many of these ids, from the first on, as a carrier has room for.
#[must_use]
pub fn as_many_as_fit(ids: impl Iterator<Item = u64>) -> Contents {
    let mut contents = with_ids(ids.take(MOST_DECLARED));
    let (bits, spans) = contents.bits();
    let after = bits.length() - spans.last().map_or(0, |last| last.body.end);
    let ends = spans.iter().map(|spans| spans.body.end);
    let fitting = ends.take_while(|end| end + after <= 8 * MOST_DECLARED);
    contents.payloads.truncate(fitting.count());
    contents
}

/// The ids from the first with the escape on, so many, in an order that jumps: each once, where the number is no multiple of
/// the step.
pub fn scrambled(count: u64) -> impl Iterator<Item = u64> {
    (0..count).map(move |place| FIRST_ESCAPED + place * 7_919 % count)
}

/// Hundreds of payloads: of ids that are all different, that repeat, that have no escape, that are the same in their low bits.
pub fn many(random: &mut Random) -> [Contents; 6] {
    let count = 520 + random.up_to(700) as u64;
    let first = FIRST_ESCAPED + random.up_to(2_000) as u64;
    let drawn: Vec<u64> = (0..count).map(|_| random.up_to(400) as u64).collect();
    [
        with_ids((0..count).map(|place| first + place)),
        with_ids((0..count).rev().map(|place| first + place)),
        with_ids(scrambled(count).chain(scrambled(count / 2))),
        with_ids(drawn.iter().map(|step| first + step)),
        with_ids(drawn.iter().map(|step| 1 + step % 30)),
        with_ids(drawn.iter().map(|step| first + 512 * step)),
    ]
}

/// The longest carriers: of ids without the escape by turns, and of ids with it that are all different, or that repeat.
#[must_use]
pub fn longest() -> [Contents; 3] {
    [
        as_many_as_fit((0..).map(|place| 1 + place % 30)),
        as_many_as_fit((0..).map(|place| FIRST_ESCAPED + place)),
        as_many_as_fit((0..).map(|place| FIRST_ESCAPED + place % 700)),
    ]
}

/// Ids whose ordinals take most to find for whoever goes back over the rows, from the last one whose id has the same low nine
/// bits: different ones, 64 in a row alike in those bits, behind so many payloads that are as short as can be.
fn searched(short: u64) -> impl Iterator<Item = u64> {
    let different = (0..).map(|place| 512 * (1 + place % 64) + place / 64);
    (0..short).map(|place| 1 + place % 30).chain(different)
}

/// The longest carrier of such ids: m different ones behind p short payloads are m times p + m / 2 rows, and most of them where p
/// is some 9,000.
#[must_use]
pub fn most_searched() -> Contents {
    as_many_as_fit(searched(9_031))
}

/// The same of 512 payloads.
#[must_use]
pub fn most_searched_of_512() -> Contents {
    with_ids(searched(256).take(512))
}

/// Those of the payloads, or of some of very many, the last one among them.
pub fn held(contents: &Contents, random: &mut Random) -> Vec<Named> {
    let ids = contents.payloads.iter().map(|payload| payload.id);
    let all: Vec<Named> = ids.zip(ordinals::ordinals(&contents.payloads)).collect();
    if all.len() <= MOST_HELD {
        return all;
    }
    let last = all.last().copied();
    let some = (0..MOST_HELD).map(|_| random.pick(&all));
    some.chain(last).collect()
}

/// Beside those of payloads: the next ordinals of their ids, 0, other ids, and both with another high bit; and names that no
/// payload can have.
pub fn beside(held: &[Named], random: &mut Random) -> Vec<Named> {
    let high = 1 << (8 + random.up_to(55));
    let near = held.iter().flat_map(|&(id, ordinal)| {
        [
            (id, ordinal + 1),
            (id, 0),
            (id ^ 1, ordinal),
            (id ^ high, ordinal),
            (id, ordinal ^ high),
        ]
    });
    let none = [(0, 0), (0, 1), (u64::MAX, u64::MAX), (1, u64::MAX)];
    near.chain(none).collect()
}
