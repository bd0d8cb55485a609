//! Variable fields written by the scope's rule, and the answers that it gives to them.

use crate::case::{Answer, Cursor};

/// The smallest value that no field may have.
pub const TOO_LARGE: u128 = 1 << 64;

/// A field of one value, which may be too large to be read.
pub struct Written {
    pub width: u8,
    pub bits: Vec<bool>,
    value: u128,
}

impl Written {
    #[must_use]
    pub fn new(width: u8, value: u128) -> Self {
        let mut bits = Vec::new();
        write(&mut bits, width, value, false);
        Self { width, bits, value }
    }

    /// # Panics
    ///
    /// On more groups than a limit can be, which takes a value far past 2^64.
    #[must_use]
    pub fn groups(&self) -> u8 {
        let groups = self.bits.len() / self.bits_of(1);
        u8::try_from(groups).expect("the values of a run need at most 127 groups")
    }

    /// The answer at a cursor with all of the field before its end, for a limit above 0.
    #[must_use]
    pub fn answer(&self, cursor: Cursor, limit: u8) -> Answer {
        let small = self.small_groups();
        let after = |groups| Cursor::new(cursor.position + self.bits_of(groups), cursor.end);
        if limit <= small && limit < self.groups() {
            Answer::too_many_groups(self.width, limit, after(limit))
        } else if small < self.groups() {
            Answer::value_too_large(after(small))
        } else {
            let value = u64::try_from(self.value).expect("small in all its groups");
            Answer::field(value, u64::from(small), after(small))
        }
    }

    /// The answer where so many of its bits, but not all, lie before the cursor's end.
    #[must_use]
    pub fn answer_cut(&self, cursor: Cursor, kept: usize) -> Answer {
        let width = usize::from(self.width);
        let into_group = kept % self.bits_of(1);
        if into_group == width {
            let after = Cursor::new(cursor.position + kept, cursor.end);
            Answer::too_few_bits(1, 0, after)
        } else {
            let after = Cursor::new(cursor.position + kept - into_group, cursor.end);
            Answer::too_few_bits(width, into_group, after)
        }
    }

    /// How many groups are read before one would start at 2^64 or more.
    fn small_groups(&self) -> u8 {
        let mut groups = self.groups();
        let mut value = self.value;
        while value >= TOO_LARGE {
            value = (value >> self.width) - 1;
            groups -= 1;
        }
        groups
    }

    fn bits_of(&self, groups: u8) -> usize {
        usize::from(groups) * (usize::from(self.width) + 1)
    }
}

/// What stands above the last group goes first, less 1 and with more set.
fn write(bits: &mut Vec<bool>, width: u8, value: u128, more: bool) {
    let above = value >> width;
    if above > 0 {
        write(bits, width, above - 1, true);
    }
    bits.extend((0..width).rev().map(|place| value >> place & 1 == 1));
    bits.push(more);
}
