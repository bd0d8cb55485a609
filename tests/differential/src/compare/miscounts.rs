//! Wrong numbers of groups in the library's place, each of which the groups named with it have to catch.

use crate::lent::Lent;
use crate::library::{Observed, Replied};
use differential::carrier::{Ask, Reply, ORIGINAL_WORDS, VERDICT_WORDS};
use differential::case::{Answer, Call, Request, ACCEPTED, BIT_WORDS};
use differential::contents::Contents;
use differential::facts::{Class, Facts};
use differential::groups::{self, Field};

/// How the groups of variable fields are counted.
#[derive(Clone, Copy)]
pub enum Miscount {
    /// As they should be.
    None,
    Smallest,
    EscapesToo,
    NoSizes,
    NoKeyId,
    MoreBits,
    Zero,
}

pub struct Mistake {
    pub name: &'static str,
    pub miscount: Miscount,
    /// By their names.
    pub caught_by: &'static [&'static str],
}

const FIELDS: &str = "fields of known values";
const CARRIERS: &str = "carriers written from their contents";
const VERDICTS: &str = "verdicts near the profile";

/// The groups that catch any of them.
pub const CATCHING: [&str; 3] = [FIELDS, CARRIERS, VERDICTS];

pub const MISTAKES: [Mistake; 6] = [
    Mistake {
        name: "answers the smallest number of groups",
        miscount: Miscount::Smallest,
        caught_by: &[CARRIERS, VERDICTS],
    },
    Mistake {
        name: "counts an escape as a group",
        miscount: Miscount::EscapesToo,
        caught_by: &[CARRIERS, VERDICTS],
    },
    Mistake {
        name: "leaves the groups of sizes out",
        miscount: Miscount::NoSizes,
        caught_by: &[CARRIERS],
    },
    Mistake {
        name: "leaves the groups of the key id out",
        miscount: Miscount::NoKeyId,
        caught_by: &[CARRIERS, VERDICTS],
    },
    Mistake {
        name: "counts the bits that say more",
        miscount: Miscount::MoreBits,
        caught_by: &[FIELDS, CARRIERS, VERDICTS],
    },
    Mistake {
        name: "answers no groups",
        miscount: Miscount::Zero,
        caught_by: &[FIELDS, CARRIERS, VERDICTS],
    },
];

impl Miscount {
    fn of_container(self, contents: &Contents) -> u64 {
        let all = groups::fields(contents);
        let counted = all.filter_map(|(field, groups)| self.of_field(field, groups));
        let chosen = match self {
            Self::Smallest => counted.min(),
            _ => counted.max(),
        };
        chosen.unwrap_or(0)
    }

    /// What a field counts for, if it counts.
    fn of_field(self, field: Field, groups: u64) -> Option<u64> {
        match (self, field) {
            (Self::NoSizes, Field::Size) | (Self::NoKeyId, Field::KeyId) => None,
            (Self::EscapesToo, Field::KeyId | Field::Id) => Some(groups + 1),
            _ => Some(self.alone(groups)),
        }
    }

    /// What a field by itself is said to have.
    fn alone(self, groups: u64) -> u64 {
        match self {
            Self::MoreBits => groups - 1,
            Self::Zero => 0,
            _ => groups,
        }
    }
}

/// The right answer to a bit or field call, but for its groups.
#[must_use]
pub fn answered(miscount: Miscount, request: Request, mut answer: Answer) -> Observed {
    if request.call == Call::VariableBits && answer.number == ACCEPTED {
        let groups = &mut answer.words[BIT_WORDS];
        *groups = miscount.alone(*groups);
    }
    Observed {
        answer,
        frame_intact: true,
    }
}

/// The right reply to a call on a carrier, but for its groups, after it wrote to what it was lent.
#[must_use]
pub fn replied(miscount: Miscount, ask: Ask, facts: &Facts, lent: &mut Lent) -> Replied {
    lent.lend(ask.lent());
    lent.write(&facts.written(ask));
    let mut reply = facts.reply(ask);
    if let (Ok(found), Some(word)) = (&facts.reading, groups_word(ask, &reply)) {
        reply.words[word] = miscount.of_container(&found.contents);
    }
    Replied {
        reply,
        frame_intact: true,
    }
}

/// Which word of a reply has the groups, if one has.
fn groups_word(ask: Ask, reply: &Reply) -> Option<usize> {
    let word = match ask {
        Ask::Classify if reply.words[0] == Class::Parsed as u64 => 1 + ORIGINAL_WORDS,
        Ask::Read { .. } | Ask::Parse | Ask::Trace { .. } => ORIGINAL_WORDS,
        Ask::Verdict { .. } | Ask::StrictVerdict => VERDICT_WORDS - 1,
        Ask::Classify | Ask::Find { .. } | Ask::MoveBody { .. } | Ask::ChooseBody { .. } => {
            return None;
        }
    };
    (reply.number == ACCEPTED).then_some(word)
}
