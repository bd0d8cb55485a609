//! Wrong ordinals and places in the library's place, each of which the groups named with it have to catch.

use crate::lent::Lent;
use crate::library::Replied;
use differential::carrier::{
    Ask, Refusal, NO_SUCH_ORDINAL, NO_SUCH_PLACE, ORIGINAL_ROW_WORDS, PADDING_NOT_ZERO, ROW,
};
use differential::case::ACCEPTED;
use differential::contents::Payload;
use differential::facts::Facts;
use differential::finds::FIRST_ESCAPED;

/// How payloads are numbered, and found by that.
#[derive(Clone, Copy, Eq, PartialEq)]
pub enum Misnumber {
    /// As they should be.
    None,
    FromZero,
    OverAllIds,
    EscapedIdsAsOne,
    /// As if only the last 512 payloads were known.
    FirstForgotten,
    ByLowBits,
    PlaceTooFar,
    FirstForZero,
    OrdinalOf32Bits,
    IdOf32Bits,
    NoSuchPlace,
    BeforeTheEnd,
}

pub struct Mistake {
    pub name: &'static str,
    pub misnumber: Misnumber,
    /// By their names.
    pub caught_by: &'static [&'static str],
}

const NAMES: &str = "every id and ordinal of a carrier";
const DAMAGED: &str = "ids and ordinals of damaged carriers";
const EDITS: &str = "ordinals after each edit";

/// The groups that catch any of them.
pub const CATCHING: [&str; 3] = [NAMES, DAMAGED, EDITS];

pub const MISTAKES: [Mistake; 11] = [
    Mistake {
        name: "numbers payloads of an id from 0",
        misnumber: Misnumber::FromZero,
        caught_by: &[NAMES, DAMAGED, EDITS],
    },
    Mistake {
        name: "numbers payloads over all ids",
        misnumber: Misnumber::OverAllIds,
        caught_by: &[NAMES, EDITS],
    },
    Mistake {
        name: "numbers all escaped ids as one",
        misnumber: Misnumber::EscapedIdsAsOne,
        caught_by: &[NAMES, EDITS],
    },
    Mistake {
        name: "forgets ids that stand 512 payloads before",
        misnumber: Misnumber::FirstForgotten,
        caught_by: &[NAMES],
    },
    Mistake {
        name: "numbers ids with the same low bits as one",
        misnumber: Misnumber::ByLowBits,
        caught_by: &[NAMES, EDITS],
    },
    Mistake {
        name: "finds the place after a payload's",
        misnumber: Misnumber::PlaceTooFar,
        caught_by: &[NAMES, DAMAGED],
    },
    Mistake {
        name: "finds the first payload for ordinal 0",
        misnumber: Misnumber::FirstForZero,
        caught_by: &[NAMES],
    },
    Mistake {
        name: "finds payloads by 32 bits of the ordinal",
        misnumber: Misnumber::OrdinalOf32Bits,
        caught_by: &[NAMES],
    },
    Mistake {
        name: "finds payloads by 32 bits of the id",
        misnumber: Misnumber::IdOf32Bits,
        caught_by: &[NAMES],
    },
    Mistake {
        name: "answers 16 for 24",
        misnumber: Misnumber::NoSuchPlace,
        caught_by: &[NAMES, DAMAGED],
    },
    Mistake {
        name: "answers 24 before the carrier is read to its end",
        misnumber: Misnumber::BeforeTheEnd,
        caught_by: &[DAMAGED],
    },
];

impl Misnumber {
    /// The ordinal that the payload at a place is said to have.
    fn ordinal(self, payloads: &[Payload], place: usize, ordinal: u64) -> u64 {
        let own = payloads[place].id;
        let counted = |from: usize, is_same: &dyn Fn(u64) -> bool| {
            let same = payloads[from..=place].iter();
            same.filter(|payload| is_same(payload.id)).count() as u64
        };
        match self {
            Self::FromZero => ordinal - 1,
            Self::OverAllIds => place as u64 + 1,
            Self::EscapedIdsAsOne if own >= FIRST_ESCAPED => counted(0, &|id| id >= FIRST_ESCAPED),
            Self::FirstForgotten => counted((place + 1).saturating_sub(512), &|id| id == own),
            Self::ByLowBits => counted(0, &|id| id % 256 == own % 256),
            _ => ordinal,
        }
    }

    /// What is looked for in the place of what was asked.
    fn asked(self, id: u64, ordinal: u64) -> Ask {
        let (id, ordinal) = match self {
            Self::FromZero => (id, ordinal.wrapping_add(1)),
            Self::FirstForZero => (id, ordinal.max(1)),
            Self::OrdinalOf32Bits => (id, ordinal & 0xffff_ffff),
            Self::IdOf32Bits => (id & 0xffff_ffff, ordinal),
            _ => (id, ordinal),
        };
        Ask::Find { id, ordinal }
    }
}

/// The right reply to a call on a carrier, but for ordinals, after it wrote to what it was lent.
#[must_use]
pub fn replied(misnumber: Misnumber, ask: Ask, facts: &Facts, lent: &mut Lent) -> Replied {
    lent.lend(ask.lent());
    let mut written = facts.written(ask).into_owned();
    let mut reply = facts.reply(ask);
    match ask {
        Ask::Read { .. } | Ask::Trace { .. } => number_anew(misnumber, facts, &mut written),
        Ask::Find { id, ordinal } => {
            reply = facts.reply(misnumber.asked(id, ordinal));
            match (misnumber, reply.number) {
                (Misnumber::PlaceTooFar, ACCEPTED) => reply.words[0] += 1,
                (Misnumber::NoSuchPlace, NO_SUCH_ORDINAL) => reply.number = NO_SUCH_PLACE,
                (Misnumber::BeforeTheEnd, PADDING_NOT_ZERO) => {
                    reply = Refusal::new(NO_SUCH_ORDINAL, [0, 0]).reply();
                }
                _ => {}
            }
        }
        _ => {}
    }
    lent.write(&written);
    Replied {
        reply,
        frame_intact: true,
    }
}

/// The rows of payloads with other ordinals; blank ones after them stay.
fn number_anew(misnumber: Misnumber, facts: &Facts, rows: &mut [u8]) {
    let Ok(found) = &facts.reading else { return };
    let payloads = &found.contents.payloads;
    if misnumber == Misnumber::None || rows.len() / ROW < payloads.len() {
        return;
    }
    let rows = rows.chunks_exact_mut(ROW).zip(0..payloads.len());
    for (row, place) in rows {
        let ordinal = &mut row[8 * ORIGINAL_ROW_WORDS..];
        let is = u64::from_be_bytes(ordinal.try_into().expect("the row's last number"));
        let said = misnumber.ordinal(payloads, place, is);
        ordinal.copy_from_slice(&said.to_be_bytes());
    }
}
