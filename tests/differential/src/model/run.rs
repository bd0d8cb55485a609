//! Bits put one by one: the plain form of what the library's writer does.

/// So many bits of the source, from one of its bits on, to `out` from bit `at` on.
///
/// Answers whether they were put: nothing is where they are not there, or don't fit.
pub fn copy(out: &mut [u8], at: usize, source: &[u8], from: usize, bits: usize) -> bool {
    let fits = has(source, from, bits) && has(out, at, bits);
    if fits {
        for place in 0..bits {
            put(out, at + place, bit(source, from + place));
        }
    }
    fits
}

/// The low bits of a number, the most significant first; a number has at most 64.
pub fn copy_number(out: &mut [u8], at: usize, width: usize, value: u64) -> bool {
    let fits = width <= 64 && has(out, at, width);
    if fits {
        for place in 0..width {
            put(out, at + place, value >> (width - 1 - place) & 1 == 1);
        }
    }
    fits
}

fn has(bytes: &[u8], from: usize, bits: usize) -> bool {
    let end = from.checked_add(bits);
    end.is_some_and(|end| end <= 8 * bytes.len())
}

fn bit(bytes: &[u8], place: usize) -> bool {
    bytes[place / 8] >> (7 - place % 8) & 1 == 1
}

fn put(bytes: &mut [u8], place: usize, bit: bool) {
    let mask = 0x80 >> (place % 8);
    if bit {
        bytes[place / 8] |= mask;
    } else {
        bytes[place / 8] &= !mask;
    }
}
