//! Edits that lead to the longest carriers, and to such as are a little too long.

use crate::carrier::MOST_DECLARED;
use crate::contents::{Contents, Settings};
use crate::plain::{self, Step};
use crate::random::Random;
use crate::shapes;

/// The edits that can lengthen a carrier, by their place in 01.
pub const LENGTHENING: [usize; 5] = [0, 1, 3, 4, 5];

/// An edit after which the container has so many bits.
#[derive(Clone, Copy, Debug)]
pub struct Limit {
    kind: usize,
    bits: usize,
}

impl Limit {
    /// All bits of the last byte that can be declared, and of the one after it.
    pub fn all() -> impl Iterator<Item = Self> {
        let most = 8 * MOST_DECLARED;
        let bits = most - 7..=most + 8;
        bits.flat_map(|bits| LENGTHENING.map(|kind| Self { kind, bits }))
    }

    #[must_use]
    pub fn declared(&self) -> usize {
        self.bits.div_ceil(8)
    }

    /// Contents that have less, and the step that they lack.
    pub fn draw(&self, random: &mut Random) -> (Contents, Step) {
        let after = with_bits(self.bits, random);
        let mut before = after.clone();
        let step = match self.kind {
            0 => {
                let place = random.pick(&[0, 2]);
                let body = std::mem::take(&mut before.payloads[place].body);
                Step::Body { place, body }
            }
            1 => {
                before.payloads[0].settings = Settings::LEAST;
                Step::Settings {
                    place: 0,
                    settings: plain::form(&after.payloads[0].settings),
                }
            }
            3 => {
                let place = random.up_to(2);
                let payload = before.payloads.remove(place);
                Step::Insert {
                    place,
                    id: payload.id,
                    settings: plain::form(&payload.settings),
                    body: payload.body,
                }
            }
            4 => {
                before.key_id = random.up_to(6) as u64;
                Step::Key {
                    key_id: after.key_id,
                }
            }
            _ => {
                before.primary.truncate(1);
                before.secondary.clear();
                Step::Protection {
                    primary: after.primary,
                    secondary: after.secondary,
                }
            }
        };
        (before, step)
    }
}

/// Contents with less than a byte to spare, and settings, key id and protection of few bits.
pub fn full(random: &mut Random) -> Contents {
    let mut contents = with_bits(8 * MOST_DECLARED, random);
    contents.key_id = 0;
    contents.payloads[0].settings = Settings::LEAST;
    contents.primary.truncate(1);
    contents.secondary.clear();
    let spare = 8 * MOST_DECLARED - plain::bits_needed(&contents);
    let more = random.bytes(spare / 8);
    contents.payloads[2].body.extend(more);
    contents
}

/// Three payloads with so many bits, and in all that an edit replaces at least a byte of them.
fn with_bits(bits: usize, random: &mut Random) -> Contents {
    let mut contents = shapes::draw_contents(random, 3, 20);
    contents.key_id = u64::MAX - random.up_to(1_000) as u64;
    contents.payloads[0].body = vec![0xc3; 1 + random.up_to(20)];
    contents.payloads[2].body = vec![0; 256];
    contents.primary = random.bytes(16);
    contents.secondary = random.bytes(16);
    let mut group_id = 0;
    loop {
        // A group more has three bits more, so that the rest is whole bytes at last.
        contents.payloads[0].settings = Settings {
            group_id: Some(group_id),
            codec: true,
            ..Settings::LEAST
        };
        let rest = bits - plain::bits_needed(&contents);
        if rest.is_multiple_of(8) {
            let more = random.bytes(rest / 8);
            contents.payloads[2].body.extend(more);
            return contents;
        }
        group_id = 4 * (group_id + 1);
    }
}
