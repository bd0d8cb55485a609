//! The Rust side: the original's reader, its answers told in the library's figures.

use crate::case::{Answer, Call, Cursor, Request};
use crate::groups;
use openjoc_bitio::{BitError, BitRead, BitReader};
use openjoc_emdf::EmdfError;

/// The original's reader with its end, which the original does not show.
pub struct Reader<'a> {
    bits: BitReader<'a>,
    end: usize,
}

impl<'a> Reader<'a> {
    #[must_use]
    pub fn new(bytes: &'a [u8]) -> Self {
        let bits = BitReader::new(bytes);
        let end = bits.bits_remaining();
        Self { bits, end }
    }

    /// A window from the first bit to the end, moved on to the position.
    ///
    /// # Panics
    ///
    /// On a forged cursor: the original can't be brought there.
    #[must_use]
    pub fn at(bytes: &'a [u8], cursor: Cursor) -> Self {
        let mut bits = BitReader::new(bytes)
            .take_bits(cursor.end)
            .expect("the end lies in the slice");
        bits.take_bits(cursor.position)
            .expect("the position lies before the end");
        Self {
            bits,
            end: cursor.end,
        }
    }

    #[must_use]
    pub fn cursor(&self) -> Cursor {
        Cursor::new(self.end - self.bits.bits_remaining(), self.end)
    }

    #[must_use]
    pub fn remaining(&self) -> usize {
        self.bits.bits_remaining()
    }

    /// What is requested, but from where the reader stands, with the window where
    /// `take_bits` made one.
    ///
    /// # Panics
    ///
    /// On a width above 255, which the original's parameter can't hold.
    pub fn call(&mut self, request: Request) -> (Answer, Option<Self>) {
        let result = match request.call {
            Call::BitCursor => Ok(0),
            Call::BitsRemaining => Ok(self.bits.bits_remaining() as u64),
            Call::ReadBits => self.bits.read_bits(request.width()),
            Call::ReadBit => self.bits.read_bit().map(u64::from),
            Call::TakeBits => return self.take_bits(request.argument),
            Call::ByteAlign => self.bits.byte_align().map(|()| 0),
            Call::VariableBits => return (self.field(request.width(), request.limit), None),
        };
        let answer = match result {
            Ok(value) => Answer::accepted(value, self.cursor()),
            Err(error) => self.refusal(error),
        };
        (answer, None)
    }

    fn take_bits(&mut self, count: usize) -> (Answer, Option<Self>) {
        match self.bits.take_bits(count) {
            Ok(bits) => {
                let after = self.cursor();
                let window = Self {
                    bits,
                    end: after.position,
                };
                (Answer::window(after, window.cursor()), Some(window))
            }
            Err(error) => (self.refusal(error), None),
        }
    }

    fn field(&mut self, width: u8, limit: u8) -> Answer {
        match openjoc_emdf::variable_bits(&mut self.bits, width, limit) {
            // The original doesn't say how many groups they are.
            Ok(value) => Answer::field(value, groups::groups(width, value), self.cursor()),
            Err(EmdfError::Bit(error)) => self.refusal(error),
            Err(EmdfError::InvalidVariableBits { width, max_groups }) => {
                Answer::invalid_bounds(width, max_groups, self.cursor())
            }
            Err(EmdfError::VariableBitsGroupLimit { width, limit }) => {
                Answer::too_many_groups(width, limit, self.cursor())
            }
            Err(EmdfError::ValueOverflow) => Answer::value_too_large(self.cursor()),
            Err(error) => unreachable!("not a field's refusal: {error}"),
        }
    }

    fn refusal(&self, error: BitError) -> Answer {
        match error {
            BitError::InvalidWidth { width } => {
                Answer::width_too_large(usize::from(width), self.cursor())
            }
            BitError::EndOfInput {
                requested,
                remaining,
            } => Answer::too_few_bits(requested, remaining, self.cursor()),
            BitError::LengthOverflow => unreachable!("takes a slice of 2^61 bytes"),
        }
    }
}

/// The original's answer to one call from a cursor that is not forged.
#[must_use]
pub fn answer(bytes: &[u8], request: Request) -> Answer {
    let mut reader = match request.call {
        Call::BitCursor => Reader::new(bytes),
        _ => Reader::at(bytes, request.cursor),
    };
    reader.call(request).0
}
