//! Memory that a call may write to, between bytes that must stay.

use differential::random::Random;

/// On either side; odd, and longer than a row, so that a row too many is seen.
const MARGIN: usize = 229;

pub struct Lent {
    bytes: Vec<u8>,
    /// What stands in `bytes` before each call.
    before: Vec<u8>,
    noise: Random,
    length: usize,
}

impl Lent {
    #[must_use]
    pub fn new() -> Self {
        Self::with_noise(0)
    }

    /// With other bytes in it, so that what comes from other memory is seen.
    #[must_use]
    pub fn with_noise(seed: u64) -> Self {
        Self {
            bytes: Vec::new(),
            before: Vec::new(),
            noise: Random::new(seed),
            length: 0,
        }
    }

    /// So many bytes as the call's own, at an odd address; a write beside them is seen.
    pub fn lend(&mut self, length: usize) -> *mut u8 {
        let all = MARGIN + length + MARGIN;
        if self.before.len() < all {
            let missing = all - self.before.len();
            self.before.extend(self.noise.bytes(missing));
            self.bytes.clone_from(&self.before);
        }
        self.length = length;
        self.bytes.as_mut_ptr().wrapping_add(MARGIN)
    }

    /// Writes the first bytes of what is lent, as far as it goes.
    pub fn write(&mut self, bytes: &[u8]) {
        let written = bytes.len().min(self.length);
        self.bytes[MARGIN..MARGIN + written].copy_from_slice(&bytes[..written]);
    }

    /// Only the first bytes were written to, and they are these.
    #[must_use]
    pub fn holds(&self, written: &[u8]) -> bool {
        let rest = MARGIN + written.len()..MARGIN + self.length + MARGIN;
        self.lent().starts_with(written)
            && self.bytes[rest.clone()] == self.before[rest]
            && self.bytes[..MARGIN] == self.before[..MARGIN]
    }

    /// The first of the call's own bytes that is not as it has to be: its place, and what it has to be and is.
    #[must_use]
    pub fn wrong_byte(&self, written: &[u8]) -> Option<(usize, u8, u8)> {
        let wanted = written.iter().chain(&self.lent_before()[written.len()..]);
        let mut bytes = wanted.zip(self.lent()).enumerate();
        let wrong = bytes.find(|(_, (wanted, is))| wanted != is);
        wrong.map(|(byte, (wanted, is))| (byte, *wanted, *is))
    }

    /// The call's own bytes, as they are now.
    #[must_use]
    pub fn lent(&self) -> &[u8] {
        &self.bytes[MARGIN..MARGIN + self.length]
    }

    /// The call's own bytes, as they were.
    #[must_use]
    pub fn lent_before(&self) -> &[u8] {
        &self.before[MARGIN..MARGIN + self.length]
    }

    /// Makes ready for the next call after one that wrote only these first bytes.
    pub fn restore(&mut self, written: usize) {
        let written = MARGIN..MARGIN + written;
        self.bytes[written.clone()].copy_from_slice(&self.before[written]);
    }

    /// Makes ready for the next call, whatever was written.
    pub fn restore_all(&mut self) {
        self.bytes.clone_from(&self.before);
    }
}
