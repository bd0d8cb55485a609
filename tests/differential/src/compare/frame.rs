//! The place for an answer, at an odd address, between bytes that must stay.

/// What stands in the answer's place and around it before a call.
const UNWRITTEN: u8 = 0x5a;

/// For an answer of so many numbers.
#[repr(C, align(8))]
pub struct Frame<const WORDS: usize> {
    before: [u8; 13],
    answer: [[u8; 8]; WORDS],
    after: [u8; 19],
}

impl<const WORDS: usize> Frame<WORDS> {
    pub const EMPTY: Self = Self {
        before: [UNWRITTEN; 13],
        answer: [[UNWRITTEN; 8]; WORDS],
        after: [UNWRITTEN; 19],
    };

    /// Taken from the whole frame, so that a write beside the answer is seen.
    pub fn answer_mut(&mut self) -> *mut u8 {
        let offset = std::mem::offset_of!(Self, answer);
        std::ptr::from_mut(self).cast::<u8>().wrapping_add(offset)
    }

    #[must_use]
    pub fn is_intact_around(&self) -> bool {
        self.before == Self::EMPTY.before && self.after == Self::EMPTY.after
    }

    /// The numbers of the answer, 8 bytes each, the most significant first.
    #[must_use]
    pub fn words(&self) -> [u64; WORDS] {
        self.answer.map(u64::from_be_bytes)
    }
}
