//! Edits for which several of the scope's questions are answered no at once.

use crate::carrier::{
    BYTES_AFTER, DESTINATION_TOO_SHORT, MOST_DECLARED, NOT_WRITABLE, NO_SUCH_PLACE, NO_SYNC_WORD,
    TOO_LONG,
};
use crate::case::ACCEPTED;
use crate::contents::{Contents, Settings};
use crate::damage;
use crate::limits;
use crate::plain::{self, Step};
use crate::random::Random;
use crate::shapes::{self, MOST_GROUP_ID};
use crate::steps::{self, KINDS};
use crate::wrong;

/// Longer than any carrier that has one body too long.
const AMPLE: usize = 2 * MOST_DECLARED;

/// What is wrong with the bytes that are to be edited.
#[derive(Clone, Copy, Debug, Eq, PartialEq)]
enum Fault {
    None,
    Refused,
    BytesAfter,
    Both,
}

const FAULTS: [Fault; 4] = [Fault::None, Fault::Refused, Fault::BytesAfter, Fault::Both];

/// The questions that have to be answered no; true is no.
#[derive(Clone, Copy, Debug)]
pub struct Noes {
    kind: usize,
    fault: Fault,
    place: bool,
    writable: bool,
    length: bool,
    room: bool,
}

/// An edit and the number of the first question that is answered no.
pub struct Refused {
    pub source: Vec<u8>,
    pub step: Step,
    pub destination: usize,
    pub number: u32,
}

impl Noes {
    /// Every set that is possible, nothing at all among them.
    pub fn all() -> impl Iterator<Item = Self> {
        let choices = (0..KINDS).flat_map(|kind| (0..16).map(move |set| (kind, set)));
        let all = choices.flat_map(|(kind, set)| {
            FAULTS.map(|fault| Self {
                kind,
                fault,
                place: set & 1 == 1,
                writable: set & 2 == 2,
                length: set & 4 == 4,
                room: set & 8 == 8,
            })
        });
        all.filter(Self::is_possible)
    }

    /// What an edit can't do wrong: a body, a key id and a drop leave nothing unwritable.
    fn is_possible(&self) -> bool {
        let has_place = self.kind < 4;
        let can_spoil = [1, 3, 5].contains(&self.kind);
        let can_lengthen = self.kind != 2;
        (has_place || !self.place)
            && (can_spoil || !self.writable)
            && (can_lengthen || !self.length)
    }

    /// All but a body are too short to be too long in another source.
    #[must_use]
    pub fn needs_a_full_source(&self) -> bool {
        self.length && [1, 4, 5].contains(&self.kind)
    }

    pub fn draw(&self, random: &mut Random) -> Refused {
        let contents = if self.needs_a_full_source() {
            limits::full(random)
        } else {
            let payloads = 1 + random.up_to(2);
            shapes::draw_contents(random, payloads, 8)
        };
        let step = self.step(contents.payloads.len(), random);
        let destination = self.destination(&contents, &step, random);
        let (source, refusal) = self.source(&contents, random);
        Refused {
            source,
            step,
            destination,
            number: refusal.unwrap_or(self.after_the_source()),
        }
    }

    fn after_the_source(&self) -> u32 {
        let questions = [
            (self.fault == Fault::BytesAfter, BYTES_AFTER),
            (self.place, NO_SUCH_PLACE),
            (self.writable, NOT_WRITABLE),
            (self.length, TOO_LONG),
            (self.room, DESTINATION_TOO_SHORT),
        ];
        let first = questions.into_iter().find(|(is_no, _)| *is_no);
        first.map_or(ACCEPTED, |(_, number)| number)
    }

    /// The bytes to be edited, and the number where a reading refuses them.
    fn source(&self, contents: &Contents, random: &mut Random) -> (Vec<u8>, Option<u32>) {
        if self.fault == Fault::Refused && !self.needs_a_full_source() {
            let mut all = wrong::carriers(contents, random);
            let wrong = all.swap_remove(random.up_to(all.len() - 1));
            return (wrong.carrier, Some(wrong.refusal.number));
        }
        let (mut carrier, _) = contents.written();
        if [Fault::BytesAfter, Fault::Both].contains(&self.fault) {
            let more = 1 + random.up_to(20);
            carrier.extend(random.bytes(more));
        }
        if [Fault::None, Fault::BytesAfter].contains(&self.fault) {
            return (carrier, None);
        }
        damage::flip(&mut carrier, random.up_to(15));
        (carrier, Some(NO_SYNC_WORD))
    }

    fn step(&self, count: usize, random: &mut Random) -> Step {
        // Of a full source it is the first payload that has settings of few bits.
        let place = match (self.place, self.kind) {
            (true, 3) => count + 1 + random.up_to(2),
            (true, _) => count + random.up_to(2),
            (false, _) => 0,
        };
        let mut step = steps::draw(self.kind, place, 8, random);
        if self.length {
            step = lengthened(step, random);
        }
        if !self.writable {
            return step;
        }
        match &mut step {
            // Past its most, and with so many groups that it lengthens too.
            Step::Settings { settings, .. } if self.length => {
                *settings = plain::form(&Settings {
                    group_id: Some(MOST_GROUP_ID + 1 + random.up_to(9) as u64),
                    ..Settings::LEAST
                });
                step
            }
            Step::Protection { primary, .. } if self.length => {
                primary.push(0);
                step
            }
            _ => steps::spoil(step, random),
        }
    }

    fn destination(&self, contents: &Contents, step: &Step, random: &mut Random) -> usize {
        if !self.room {
            return AMPLE;
        }
        match step.on(contents, usize::MAX) {
            Ok(after) if random.one_in(2) => plain::length(&after) - 1,
            Ok(after) => random.up_to(plain::length(&after) - 1),
            Err(_) => random.up_to(3),
        }
    }
}

/// A body that is too long anywhere, or arguments that are too long for a full source.
pub fn lengthened(mut step: Step, random: &mut Random) -> Step {
    match &mut step {
        Step::Body { body, .. } | Step::Insert { body, .. } => {
            body.resize(MOST_DECLARED + random.up_to(600), 0x5a);
        }
        Step::Settings { settings, .. } => {
            *settings = plain::form(&Settings {
                codec: true,
                ..Settings::LEAST
            });
        }
        Step::Key { key_id } => *key_id |= 1 << 40,
        Step::Protection { primary, .. } => primary.resize(16, 0x5a),
        Step::Drop { .. } | Step::Blank { .. } => {}
    }
    step
}
