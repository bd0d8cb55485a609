//! The groups for variable fields.

use crate::bits;
use crate::judge::Subject;
use crate::report::{Difference, Group, Tally};
use differential::case::{
    Cursor, Request, ACCEPTED, INVALID_BOUNDS, MAX_FIELD_WIDTH, TOO_FEW_BITS, TOO_MANY_GROUPS,
    VALUE_TOO_LARGE,
};
use differential::options::Length;
use differential::random::Random;
use differential::written::{Written, TOO_LARGE};

pub const GROUPS: [Group; 5] = [
    Group {
        name: "every width and limit of a field",
        least: 1,
        outcomes: &[
            ("variable_bits", ACCEPTED),
            ("variable_bits", TOO_FEW_BITS),
            ("variable_bits", INVALID_BOUNDS),
            ("variable_bits", TOO_MANY_GROUPS),
            ("variable_bits", VALUE_TOO_LARGE),
        ],
        marks: &[],
        run: every_bound,
    },
    Group {
        name: "fields of known values",
        least: 1,
        outcomes: &[
            ("variable_bits", ACCEPTED),
            ("variable_bits", TOO_FEW_BITS),
            ("variable_bits", TOO_MANY_GROUPS),
        ],
        marks: &[],
        run: known_values,
    },
    Group {
        name: "fields in random bits",
        least: 1,
        outcomes: &[
            ("variable_bits", ACCEPTED),
            ("variable_bits", TOO_FEW_BITS),
            ("variable_bits", TOO_MANY_GROUPS),
            ("variable_bits", VALUE_TOO_LARGE),
        ],
        marks: &[],
        run: random_bits,
    },
    Group {
        name: "fields up to 2^64 and past it",
        least: 1,
        outcomes: &[
            ("variable_bits", ACCEPTED),
            ("variable_bits", TOO_MANY_GROUPS),
            ("variable_bits", VALUE_TOO_LARGE),
        ],
        marks: &[LIMIT_AT_OVERFLOW],
        run: overflows,
    },
    Group {
        name: "fields at forged cursors against a model, not the Rust",
        least: 1,
        outcomes: &[
            ("variable_bits", TOO_FEW_BITS),
            ("variable_bits", INVALID_BOUNDS),
        ],
        marks: &[],
        run: forged_cursors,
    },
];

/// The limit was met at the very group after which the next would start at 2^64 or more.
const LIMIT_AT_OVERFLOW: &str = "limit-at-overflow";

/// The last two are long enough for values past 2^64, from position 9 too.
const SLICES: [&[u8]; 6] = [
    &[0xff; 2],
    &[0x00; 2],
    &[0xaa; 3],
    &[0x80, 0x01],
    &[0x55; 18],
    &[0xff; 18],
];

fn every_bound(tally: &mut Tally, _: &mut Random, _: Length) -> Result<(), Difference> {
    for bytes in SLICES {
        let subject = Subject::new(bytes);
        let bits = 8 * bytes.len();
        for end in [bits - 1, bits] {
            for position in 0..=9 {
                for request in every_field(Cursor::new(position, end)) {
                    subject.check(request, tally)?;
                }
            }
        }
    }
    Ok(())
}

fn every_field(cursor: Cursor) -> impl Iterator<Item = Request> {
    (0..=u8::MAX)
        .flat_map(move |width| (0..=u8::MAX).map(move |limit| Request::field(cursor, width, limit)))
}

fn known_values(tally: &mut Tally, random: &mut Random, length: Length) -> Result<(), Difference> {
    for _ in 0..length.rounds(8, 160) {
        for width in 1..=MAX_FIELD_WIDTH {
            for value in values(random, width) {
                known_value(&Written::new(width, value), tally, random)?;
            }
        }
    }
    Ok(())
}

/// The edges between numbers of groups with their neighbours, both ends, and random values.
fn values(random: &mut Random, width: u8) -> Vec<u128> {
    let mut values = vec![0, 1, TOO_LARGE - 1];
    let mut edge = 1 << width;
    while edge < TOO_LARGE {
        values.extend(edge - 2..=(edge + 1).min(TOO_LARGE - 1));
        edge = (edge + 1) << width;
    }
    values.extend((0..8).map(|_| u128::from(random.word() >> random.up_to(63))));
    values
}

/// The field in random bits, at limits around its own, then cut at each of its bits.
fn known_value(field: &Written, tally: &mut Tally, random: &mut Random) -> Result<(), Difference> {
    let start = random.up_to(7);
    let bytes = placed(&field.bits, start, random);
    let subject = Subject::new(&bytes);
    let groups = field.groups();
    let end = random.pick(&[start + field.bits.len(), 8 * bytes.len()]);
    let cursor = Cursor::new(start, end);
    for limit in [groups, groups - 1, groups + 1, 31, 255] {
        if limit > 0 {
            let request = Request::field(cursor, field.width, limit);
            subject.check_with_rule(request, field.answer(cursor, limit), tally)?;
        }
    }
    for kept in 0..field.bits.len() {
        let cursor = Cursor::new(start, start + kept);
        let request = Request::field(cursor, field.width, groups);
        subject.check_with_rule(request, field.answer_cut(cursor, kept), tally)?;
    }
    Ok(())
}

/// A slice with these bits at some place and random ones around them.
fn placed(bits: &[bool], start: usize, random: &mut Random) -> Vec<u8> {
    let after = random.up_to(16);
    let mut bytes = random.bytes((start + bits.len() + after).div_ceil(8));
    for (&bit, place) in bits.iter().zip(start..) {
        put(&mut bytes, place, bit);
    }
    bytes
}

fn put(bytes: &mut [u8], place: usize, bit: bool) {
    let mask = 0x80 >> (place % 8);
    if bit {
        bytes[place / 8] |= mask;
    } else {
        bytes[place / 8] &= !mask;
    }
}

fn random_bits(tally: &mut Tally, random: &mut Random, length: Length) -> Result<(), Difference> {
    for _ in 0..length.rounds(50_000, 1_000_000) {
        let size = random.up_to(80);
        let mut bytes = random.bytes(size);
        let grid = Grid::draw(random);
        grid.set_more(&mut bytes, random);
        let subject = Subject::new(&bytes);
        for _ in 0..20 {
            subject.check(grid.request(8 * size, random), tally)?;
        }
    }
    Ok(())
}

/// Groups of one width side by side.
struct Grid {
    width: u8,
    first: usize,
}

impl Grid {
    fn draw(random: &mut Random) -> Self {
        let width = draw_byte(random, &[12, MAX_FIELD_WIDTH]);
        Self {
            width,
            first: random.up_to(usize::from(width)),
        }
    }

    fn group(&self) -> usize {
        usize::from(self.width) + 1
    }

    /// Sets more bits: half of them, most or nearly all.
    fn set_more(&self, bytes: &mut [u8], random: &mut Random) {
        let left_alone = random.pick(&[2, 8, 64]);
        let last_of_group = self.first + usize::from(self.width);
        for place in (last_of_group..8 * bytes.len()).step_by(self.group()) {
            if !random.one_in(left_alone) {
                put(bytes, place, true);
            }
        }
    }

    /// A field from the start of a group most times, else from any bit or of any width.
    fn request(&self, bits: usize, random: &mut Random) -> Request {
        let end = if random.one_in(2) {
            bits
        } else {
            random.up_to(bits)
        };
        let position = if random.one_in(4) || end < self.first {
            random.up_to(end)
        } else {
            self.first + self.group() * random.up_to((end - self.first) / self.group())
        };
        let width = if random.one_in(8) {
            draw_byte(random, &[MAX_FIELD_WIDTH])
        } else {
            self.width
        };
        let limit = draw_byte(random, &[4, 31, u8::MAX]);
        Request::field(Cursor::new(position, end), width, limit)
    }
}

/// A number from 1 to one of the bounds.
fn draw_byte(random: &mut Random, bounds: &[u8]) -> u8 {
    let bound = random.pick(bounds);
    1 + random.up_to(usize::from(bound) - 1) as u8
}

fn overflows(tally: &mut Tally, random: &mut Random, length: Length) -> Result<(), Difference> {
    for width in 1..=MAX_FIELD_WIDTH {
        for start in 0..=7 {
            for bits in endless(width) {
                every_limit(width, &placed(&bits, start, random), start, tally)?;
            }
        }
        for _ in 0..length.rounds(20, 400) {
            for value in large_values(random, width) {
                large_value(&Written::new(width, value), tally, random)?;
            }
        }
    }
    Ok(())
}

/// More bits set up to past 2^64: the slowest growth, the fastest, and that but for one bit.
fn endless(width: u8) -> Vec<Vec<bool>> {
    let group = usize::from(width) + 1;
    let bits = (64_usize.div_ceil(group - 1) + 1) * group;
    let slowest = (1..=bits).map(|place| place % group == 0).collect();
    let mut all = vec![slowest, vec![true; bits]];
    all.extend((0..bits).map(|cleared| (0..bits).map(|place| place != cleared).collect()));
    all
}

/// Limits from 1 to one that no field can meet.
fn every_limit(width: u8, bytes: &[u8], start: usize, tally: &mut Tally) -> Result<(), Difference> {
    let subject = Subject::new(bytes);
    let cursor = Cursor::new(start, 8 * bytes.len());
    let mut before = ACCEPTED;
    for limit in 1..=64_u8.div_ceil(width) + 2 {
        let request = Request::field(cursor, width, limit);
        let number = subject.check(request, tally)?.number;
        if (before, number) == (TOO_MANY_GROUPS, VALUE_TOO_LARGE) {
            tally.mark(LIMIT_AT_OVERFLOW);
        }
        before = number;
    }
    Ok(())
}

/// The last values that fit, the first that don't, those one group further, and a random one.
fn large_values(random: &mut Random, width: u8) -> Vec<u128> {
    let next = TOO_LARGE + (1 << width);
    let mut values: Vec<u128> = (TOO_LARGE - 2..=TOO_LARGE + 1)
        .chain(next - 1..=next)
        .collect();
    let drawn = u128::from(random.word()) << 64 | u128::from(random.word());
    values.push(TOO_LARGE + (drawn >> (1 + random.up_to(126))));
    values
}

fn large_value(field: &Written, tally: &mut Tally, random: &mut Random) -> Result<(), Difference> {
    let start = random.up_to(7);
    let bytes = placed(&field.bits, start, random);
    let subject = Subject::new(&bytes);
    let cursor = Cursor::new(start, 8 * bytes.len());
    for limit in 1..=field.groups() + 1 {
        let request = Request::field(cursor, field.width, limit);
        subject.check_with_rule(request, field.answer(cursor, limit), tally)?;
    }
    Ok(())
}

fn forged_cursors(tally: &mut Tally, random: &mut Random, _: Length) -> Result<(), Difference> {
    for size in [0, 1, 20] {
        let bytes = random.bytes(size);
        let subject = Subject::new(&bytes);
        for cursor in bits::forged(size) {
            for width in [0, 1, 8, 63, 64, 255] {
                for limit in [0, 1, 255] {
                    subject.check(Request::field(cursor, width, limit), tally)?;
                }
            }
        }
    }
    Ok(())
}
