//! The answers to forged cursors, which the original can't be asked: 0 bits are left.

use differential::case::{Answer, Call, Cursor, Request, MAX_FIELD_WIDTH, MAX_WIDTH};

/// # Panics
///
/// On `bit_cursor`, which takes no cursor.
#[must_use]
pub fn forged(request: Request) -> Answer {
    let Request {
        call,
        cursor,
        argument,
        limit,
        ..
    } = request;
    match call {
        Call::BitCursor => unreachable!("takes no cursor"),
        Call::BitsRemaining => Answer::accepted(0, cursor),
        Call::ReadBits if argument > MAX_WIDTH => Answer::width_too_large(argument, cursor),
        Call::ReadBits => needing(argument, cursor, Answer::accepted(0, cursor)),
        Call::ReadBit => needing(1, cursor, Answer::accepted(0, cursor)),
        Call::TakeBits => {
            let window = Cursor::new(cursor.position, cursor.position);
            needing(argument, cursor, Answer::window(cursor, window))
        }
        Call::ByteAlign => {
            let to_the_edge = (8 - cursor.position % 8) % 8;
            needing(to_the_edge, cursor, Answer::accepted(0, cursor))
        }
        Call::VariableBits => match request.width() {
            1..=MAX_FIELD_WIDTH if limit > 0 => Answer::too_few_bits(argument, 0, cursor),
            width => Answer::invalid_bounds(width, limit, cursor),
        },
    }
}

/// Nothing can be had but no bits at all.
fn needing(bits: usize, cursor: Cursor, without_any: Answer) -> Answer {
    if bits == 0 {
        without_any
    } else {
        Answer::too_few_bits(bits, 0, cursor)
    }
}
