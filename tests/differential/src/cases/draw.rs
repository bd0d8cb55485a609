//! Random cursors and calls, weighted so that every outcome is common.

use crate::case::{Call, Cursor};
use crate::random::Random;

/// The widest read that is drawn; 65 and 66 are refused.
const WIDEST: usize = 66;

/// A cursor in a slice, near its end in half of the cases.
pub fn cursor(random: &mut Random, length: usize) -> Cursor {
    let bits = 8 * length;
    let end = if random.one_in(4) {
        bits
    } else {
        random.up_to(bits)
    };
    let position = if random.one_in(2) {
        end - random.up_to(end.min(WIDEST))
    } else {
        random.up_to(end)
    };
    Cursor::new(position, end)
}

/// A call on a cursor with so many bits left, and its argument.
pub fn call(random: &mut Random, remaining: usize) -> (Call, usize) {
    match random.up_to(11) {
        0 => (Call::BitsRemaining, 0),
        1 => (Call::ReadBit, 0),
        2 | 3 => (Call::ByteAlign, 0),
        4..=6 => (Call::TakeBits, count(random, remaining)),
        7 | 8 => (Call::ReadBits, random.up_to(8)),
        _ => (Call::ReadBits, random.up_to(WIDEST)),
    }
}

/// A count of bits, one time in four at the edge of what is left or beyond.
fn count(random: &mut Random, remaining: usize) -> usize {
    if random.one_in(4) {
        random.pick(&[
            remaining,
            remaining + 1,
            remaining + 8,
            1 << 61,
            1 << 63,
            usize::MAX,
        ])
    } else {
        random.up_to(remaining)
    }
}
