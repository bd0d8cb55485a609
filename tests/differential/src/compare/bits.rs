//! The groups for the bit calls.

use crate::judge::{Lockstep, Subject};
use crate::report::{Difference, Group, Outcome, Tally};
use differential::case::{Call, Cursor, Request, ACCEPTED, TOO_FEW_BITS, WIDTH_TOO_LARGE};
use differential::draw;
use differential::options::Length;
use differential::random::Random;

pub const GROUPS: [Group; 6] = [
    Group {
        name: "every call on short slices",
        least: 1,
        outcomes: &EVERY_OUTCOME,
        marks: &[],
        run: short_slices,
    },
    Group {
        name: "random calls on long slices",
        least: 1,
        outcomes: &EVERY_OUTCOME,
        marks: &[],
        run: long_slices,
    },
    Group {
        name: "sequences with windows in windows",
        least: 1,
        outcomes: &EVERY_OUTCOME,
        marks: &[AFTER_REFUSAL, DEEPEST_WINDOW],
        run: sequences,
    },
    Group {
        name: "byte_align in every window",
        least: 1,
        outcomes: &[
            ("take_bits", ACCEPTED),
            ("byte_align", ACCEPTED),
            ("byte_align", TOO_FEW_BITS),
            ("read_bit", ACCEPTED),
            ("read_bit", TOO_FEW_BITS),
        ],
        marks: &[],
        run: alignment_in_windows,
    },
    Group {
        name: "forged cursors against a model, not the Rust",
        least: 1,
        outcomes: &[
            ("bits_remaining", ACCEPTED),
            ("read_bits", ACCEPTED),
            ("read_bits", TOO_FEW_BITS),
            ("read_bits", WIDTH_TOO_LARGE),
            ("read_bit", TOO_FEW_BITS),
            ("take_bits", ACCEPTED),
            ("take_bits", TOO_FEW_BITS),
            ("byte_align", ACCEPTED),
            ("byte_align", TOO_FEW_BITS),
        ],
        marks: &[],
        run: forged_cursors,
    },
    Group {
        name: "bit_cursor",
        least: 1,
        outcomes: &[("bit_cursor", ACCEPTED), ("BitReader::new", ACCEPTED)],
        marks: &[],
        run: bit_cursors,
    },
];

const EVERY_OUTCOME: [Outcome; 20] = [
    ("bits_remaining", ACCEPTED),
    ("read_bits", ACCEPTED),
    ("read_bits", TOO_FEW_BITS),
    ("read_bits", WIDTH_TOO_LARGE),
    ("read_bit", ACCEPTED),
    ("read_bit", TOO_FEW_BITS),
    ("take_bits", ACCEPTED),
    ("take_bits", TOO_FEW_BITS),
    ("byte_align", ACCEPTED),
    ("byte_align", TOO_FEW_BITS),
    ("BitReader::bits_remaining", ACCEPTED),
    ("BitReader::read_bits", ACCEPTED),
    ("BitReader::read_bits", TOO_FEW_BITS),
    ("BitReader::read_bits", WIDTH_TOO_LARGE),
    ("BitReader::read_bit", ACCEPTED),
    ("BitReader::read_bit", TOO_FEW_BITS),
    ("BitReader::take_bits", ACCEPTED),
    ("BitReader::take_bits", TOO_FEW_BITS),
    ("BitReader::byte_align", ACCEPTED),
    ("BitReader::byte_align", TOO_FEW_BITS),
];

const AFTER_REFUSAL: &str = "after-refusal";
const DEEPEST_WINDOW: &str = "depth-6";

/// Windows within windows, the whole slice not counted.
const DEPTH: usize = 6;

/// Bytes that tell bit orders, shifts and edges apart.
const PATTERNS: [u8; 6] = [0x00, 0xff, 0xaa, 0x55, 0x80, 0x01];

/// Every call with every small argument, and the widest width.
fn every_request(
    cursor: Cursor,
    counts: impl Iterator<Item = usize>,
) -> impl Iterator<Item = Request> {
    let plain = [Call::BitsRemaining, Call::ReadBit, Call::ByteAlign].map(|call| (call, 0));
    let widths = (0..=70).chain([255]).map(|width| (Call::ReadBits, width));
    let counts = counts.map(|count| (Call::TakeBits, count));
    plain
        .into_iter()
        .chain(widths)
        .chain(counts)
        .map(move |(call, argument)| Request::new(call, cursor, argument))
}

/// All slices of 0 and 1 bytes, and of 2 and 3 bytes the patterns and random ones.
fn slices(random: &mut Random, drawn: usize) -> Vec<Vec<u8>> {
    let mut slices = vec![Vec::new()];
    slices.extend((0..=255).map(|byte| vec![byte]));
    for first in PATTERNS {
        for second in PATTERNS {
            slices.push(vec![first, second]);
            slices.extend(PATTERNS.map(|third| vec![first, second, third]));
        }
    }
    for _ in 0..drawn {
        slices.push(random.bytes(2));
        slices.push(random.bytes(3));
    }
    slices
}

fn short_slices(tally: &mut Tally, random: &mut Random, length: Length) -> Result<(), Difference> {
    for bytes in slices(random, length.rounds(300, 3_000)) {
        let subject = Subject::new(&bytes);
        for end in 0..=8 * bytes.len() {
            for position in 0..=end {
                let counts = (0..=end - position + 3).chain([1 << 63, usize::MAX]);
                for request in every_request(Cursor::new(position, end), counts) {
                    subject.check(request, tally)?;
                }
            }
        }
    }
    Ok(())
}

fn long_slices(tally: &mut Tally, random: &mut Random, length: Length) -> Result<(), Difference> {
    for _ in 0..length.rounds(40_000, 400_000) {
        let size = if random.one_in(100) {
            100_000
        } else {
            random.up_to(5_000)
        };
        let bytes = random.bytes(size);
        let subject = Subject::new(&bytes);
        for _ in 0..200 {
            let cursor = draw::cursor(random, size);
            let (call, argument) = draw::call(random, cursor.end - cursor.position);
            subject.check(Request::new(call, cursor, argument), tally)?;
        }
    }
    Ok(())
}

fn sequences(tally: &mut Tally, random: &mut Random, length: Length) -> Result<(), Difference> {
    for _ in 0..length.rounds(60_000, 600_000) {
        let size = random.up_to(300);
        let bytes = random.bytes(size);
        sequence(&Subject::new(&bytes), tally, random)?;
    }
    Ok(())
}

/// One script of calls; windows are entered, left and read on from.
fn sequence(
    subject: &Subject<'_>,
    tally: &mut Tally,
    random: &mut Random,
) -> Result<(), Difference> {
    let mut current = Lockstep::new(subject, tally)?;
    let mut parents = Vec::new();
    let mut after_refusal = false;
    for _ in 0..100 {
        let (call, argument) = draw::call(random, current.remaining());
        let (answer, window) = current.call(call, argument, tally)?;
        if after_refusal {
            tally.mark(AFTER_REFUSAL);
        }
        if parents.len() == DEPTH {
            tally.mark(DEEPEST_WINDOW);
        }
        after_refusal = answer.number != ACCEPTED;
        match window {
            Some(window) if parents.len() < DEPTH && !random.one_in(3) => {
                parents.push(std::mem::replace(&mut current, window));
            }
            _ if random.one_in(if current.remaining() == 0 { 2 } else { 20 }) => {
                if let Some(parent) = parents.pop() {
                    current = parent;
                    after_refusal = false;
                }
            }
            _ => {}
        }
    }
    Ok(())
}

fn alignment_in_windows(
    tally: &mut Tally,
    random: &mut Random,
    length: Length,
) -> Result<(), Difference> {
    for _ in 0..length.rounds(40, 600) {
        for size in 0..=4 {
            let bytes = random.bytes(size);
            let subject = Subject::new(&bytes);
            for end in 0..=8 * size {
                for start in 0..=end {
                    for position in start..=end {
                        align_in_window(&subject, start..end, position, tally)?;
                    }
                }
            }
        }
    }
    Ok(())
}

/// Makes the window, moves on to the position, aligns, and reads on from there.
fn align_in_window(
    subject: &Subject<'_>,
    window: std::ops::Range<usize>,
    position: usize,
    tally: &mut Tally,
) -> Result<(), Difference> {
    let mut whole = Lockstep::new(subject, tally)?;
    whole.call(Call::TakeBits, window.start, tally)?;
    let (_, inside) = whole.call(Call::TakeBits, window.len(), tally)?;
    let mut inside = inside.expect("the window lies in the slice");
    inside.call(Call::TakeBits, position - window.start, tally)?;
    inside.call(Call::ByteAlign, 0, tally)?;
    inside.call(Call::ReadBit, 0, tally)?;
    Ok(())
}

fn forged_cursors(
    tally: &mut Tally,
    random: &mut Random,
    length: Length,
) -> Result<(), Difference> {
    for size in (0..=3).chain([20]) {
        for _ in 0..length.rounds(2, 16) {
            let bytes = random.bytes(size);
            let subject = Subject::new(&bytes);
            for cursor in forged(size) {
                for request in every_request(cursor, [0, 1, 8, 1 << 63, usize::MAX].into_iter()) {
                    subject.check(request, tally)?;
                }
            }
        }
    }
    Ok(())
}

/// Cursors with their end past the slice or their position past the end.
pub fn forged(size: usize) -> impl Iterator<Item = Cursor> {
    let bits = 8 * size;
    let near = (0..=9).chain(bits.saturating_sub(9).max(10)..=bits + 17);
    let far = [1 << 32, 1 << 61, 1 << 63, usize::MAX - 8];
    let far = far.into_iter().flat_map(|bit: usize| bit - 9..=bit + 8);
    let places: Vec<usize> = near.chain(far).collect();
    let ends = places.clone();
    ends.into_iter()
        .flat_map(move |end| {
            let positions = places.clone().into_iter();
            positions.map(move |position| Cursor::new(position, end))
        })
        .filter(move |cursor| cursor.is_forged(size))
}

fn bit_cursors(tally: &mut Tally, random: &mut Random, _: Length) -> Result<(), Difference> {
    for size in 0..=2_000 {
        let bytes = random.bytes(size);
        Subject::new(&bytes).check(Request::bit_cursor(), tally)?;
    }
    Ok(())
}
