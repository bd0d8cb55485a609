//! Lists of edits in pairs: two ways to the same contents, and contents that differ in one thing.

use crate::carrier::{HEADER, MOST_DECLARED};
use crate::contents::{Contents, Payload};
use crate::limits::{self, LENGTHENING};
use crate::noes;
use crate::plain::{self, Step};
use crate::random::Random;
use crate::shapes;
use crate::steps::{self, KINDS};

/// A start and the edits from there, each with its destination's length.
#[derive(Clone)]
pub struct Script {
    pub start: Contents,
    pub edits: Vec<(Step, usize)>,
}

/// How the second list of a pair comes to where the first one does.
#[derive(Clone, Copy, Debug, Eq, PartialEq)]
pub enum Way {
    /// The same edits among others that are refused.
    Refused,
    /// The same edits among others that undo each other, and such as put back the protections that these cleared.
    Undone,
    /// Edits that have nothing to do with each other, in another order; one of the protections comes last in both, or in none.
    Reordered,
    /// From a blank, payload by payload.
    Built,
    /// Any edits in another order, which may lead elsewhere.
    Shuffled,
    /// Nothing in common.
    Other,
}

pub const WAYS: [Way; 6] = [
    Way::Refused,
    Way::Undone,
    Way::Reordered,
    Way::Built,
    Way::Shuffled,
    Way::Other,
];

/// Those that lead to the same contents.
pub const SURE_WAYS: usize = 4;

/// The one thing that can be made different at the end.
pub const THINGS: usize = 10;

/// The thing that all contents have.
const KEY_ID: usize = 8;

/// The thing that comes of an edit alone, whatever it asks for.
const CLEARED: usize = 9;

pub struct Pair {
    pub scripts: [Script; 2],
    pub way: Way,
    pub thing: Option<usize>,
}

impl Pair {
    pub fn draw(random: &mut Random) -> Self {
        let way = random.pick(&WAYS);
        let first = match way {
            Way::Reordered => Script::draw_unordered(random),
            _ => Script::draw(random),
        };
        let mut second = first.second(way, random);
        let thing = random.one_in(2).then(|| random.up_to(THINGS - 1));
        let thing = thing.map(|thing| second.differ(thing, random));
        let mut scripts = [first, second];
        if random.one_in(2) {
            scripts.swap(0, 1);
        }
        Self {
            scripts,
            way,
            thing,
        }
    }

    /// A start that is full, so that each edit is refused that lengthens it; then one makes room.
    pub fn draw_long(random: &mut Random) -> Self {
        let mut first = Script::from(limits::full(random));
        let mut kinds = LENGTHENING;
        shuffle(&mut kinds, random);
        for kind in kinds {
            let step = steps::draw(kind, 0, 8, random);
            first.edits.push((noes::lengthened(step, random), AMPLE));
        }
        let place = random.up_to(2);
        first.edits.push((Step::Drop { place }, AMPLE));
        for kind in kinds {
            first.edits.push((steps::draw(kind, 0, 8, random), AMPLE));
        }
        let way = Way::Undone;
        let second = first.second(way, random);
        Self {
            scripts: [first, second],
            way,
            thing: None,
        }
    }
}

impl Script {
    /// The plain contents at its end.
    #[must_use]
    pub fn end(&self) -> Contents {
        let mut contents = self.start.clone();
        for (step, destination) in &self.edits {
            contents = step.on(&contents, *destination).unwrap_or(contents);
        }
        contents
    }

    /// Any edits, and refused ones among them; some start with protections of zeros, and some end with others.
    fn draw(random: &mut Random) -> Self {
        let payloads = random.up_to(4);
        let most_body = random.pick(&[0, 8, 40, 300]);
        let mut script = Self::from(shapes::draw_contents(random, payloads, most_body));
        if random.one_in(3) {
            script.start = script.start.cleared();
        }
        let mut contents = script.start.clone();
        for _ in 0..random.up_to(8) {
            let step = draw_step(&contents, random);
            let destination = draw_room(&contents, &step, random);
            contents = step.on(&contents, destination).unwrap_or(contents);
            script.edits.push((step, destination));
        }
        if random.one_in(4) {
            script.edits.push((steps::draw(5, 0, 0, random), AMPLE));
        }
        script
    }

    /// Edits that each change another part.
    fn draw_unordered(random: &mut Random) -> Self {
        let payloads = random.up_to(4);
        let mut script = Self::from(shapes::draw_contents(random, payloads, 20));
        let parts = (0..payloads).flat_map(|place| [(0, place), (1, place)]);
        let mut parts: Vec<_> = parts.chain([(4, 0), (5, 0)]).collect();
        shuffle(&mut parts, random);
        parts.truncate(random.up_to(parts.len()));
        for (kind, place) in parts {
            let step = steps::draw(kind, place, 20, random);
            script.edits.push((step, AMPLE));
        }
        script
    }

    fn from(start: Contents) -> Self {
        Self {
            start,
            edits: Vec::new(),
        }
    }

    /// Another list, by one of the ways.
    fn second(&self, way: Way, random: &mut Random) -> Self {
        match way {
            Way::Refused => self.among(random, |contents, random| vec![refused(contents, random)]),
            Way::Undone => self.among(random, undone),
            Way::Reordered => loop {
                let other = self.shuffled(random);
                if other.ends_with_protections() == self.ends_with_protections() {
                    return other;
                }
            },
            Way::Shuffled => self.shuffled(random),
            Way::Built => built(&self.end(), random),
            Way::Other => Self::draw(random),
        }
    }

    fn shuffled(&self, random: &mut Random) -> Self {
        let mut other = self.clone();
        shuffle(&mut other.edits, random);
        other
    }

    /// Whether no edit comes after that of the protections, which would clear them.
    fn ends_with_protections(&self) -> bool {
        matches!(self.edits.last(), Some((Step::Protection { .. }, _)))
    }

    /// The edits of this list that are accepted, with others before, between and after.
    fn among(
        &self,
        random: &mut Random,
        others: fn(&Contents, &mut Random) -> Vec<(Step, usize)>,
    ) -> Self {
        let mut other = Self::from(self.start.clone());
        let mut contents = self.start.clone();
        for (step, destination) in &self.edits {
            if random.one_in(2) {
                other.edits.extend(others(&contents, random));
            }
            if let Ok(after) = step.on(&contents, *destination) {
                contents = after;
                other.edits.push((step.clone(), *destination));
            }
        }
        other.edits.extend(others(&contents, random));
        other
    }

    /// Edits at the end after which one thing is not as it was: that thing, or the key id where the contents lack it.
    fn differ(&mut self, thing: usize, random: &mut Random) -> usize {
        let end = self.end();
        let (thing, mut steps) = match one_thing(&end, thing, random) {
            Some(steps) => (thing, steps),
            None => {
                let key_id = end.key_id ^ 1 << random.up_to(63);
                (KEY_ID, vec![Step::Key { key_id }])
            }
        };
        if thing != CLEARED && steps.last().is_some_and(Step::clears) {
            steps.extend(put_back(&end));
        }
        self.edits
            .extend(steps.into_iter().map(|step| (step, AMPLE)));
        thing
    }
}

/// Room for any carrier.
pub const AMPLE: usize = HEADER + MOST_DECLARED;

/// Any edit; some name a place that there isn't, and one in eight is refused for its arguments.
fn draw_step(contents: &Contents, random: &mut Random) -> Step {
    let count = contents.payloads.len();
    let kind = random.up_to(KINDS - 1);
    let place = if random.one_in(8) {
        count + random.up_to(2)
    } else {
        random.up_to(count)
    };
    let most_body = random.pick(&[0, 8, 40, 300]);
    let step = steps::draw(kind, place, most_body, random);
    match step {
        Step::Body { place, .. } if random.one_in(40) => Step::Body {
            place,
            body: vec![0x5a; MOST_DECLARED + random.up_to(600)],
        },
        Step::Insert {
            place,
            id,
            settings,
            ..
        } if random.one_in(40) => Step::Insert {
            place,
            id,
            settings,
            body: vec![0xa5; MOST_DECLARED + random.up_to(600)],
        },
        step if random.one_in(8) => steps::spoil(step, random),
        step => step,
    }
}

/// The destination's length: too short one time in six, just enough, or more.
fn draw_room(contents: &Contents, step: &Step, random: &mut Random) -> usize {
    let Ok(after) = step.on(contents, usize::MAX) else {
        return random.up_to(600);
    };
    let needed = plain::length(&after);
    match random.up_to(11) {
        0 => needed - 1,
        1 => random.up_to(needed - 1),
        2..=5 => needed,
        _ => needed + 1 + random.up_to(50),
    }
}

fn refused(contents: &Contents, random: &mut Random) -> (Step, usize) {
    loop {
        let step = draw_step(contents, random);
        let destination = if random.one_in(2) {
            random.up_to(plain::length(contents))
        } else {
            draw_room(contents, &step, random)
        };
        if step.on(contents, destination).is_err() {
            return (step, destination);
        }
    }
}

/// A step, the one that takes it back and, where they cleared protections, the one that puts them back.
fn undone(contents: &Contents, random: &mut Random) -> Vec<(Step, usize)> {
    let kind = random.up_to(KINDS - 1);
    let Some((step, back)) = there_and_back(contents, kind, random) else {
        return Vec::new();
    };
    let clears = step.clears();
    let mut steps = vec![step, back];
    if clears {
        steps.extend(put_back(contents));
    }
    let mut contents = contents.clone();
    let mut undone = Vec::new();
    for step in steps {
        if let Ok(after) = step.on(&contents, AMPLE) {
            contents = after;
        }
        undone.push((step, plain::length(&contents) + random.up_to(3)));
    }
    undone
}

/// A step of this kind and the one that takes back what it names, where the first is accepted.
fn there_and_back(contents: &Contents, kind: usize, random: &mut Random) -> Option<(Step, Step)> {
    let count = contents.payloads.len();
    let place = match kind {
        3 => random.up_to(count),
        _ => random.up_to(count.saturating_sub(1)),
    };
    let step = steps::draw(kind, place, 40, random);
    step.on(contents, AMPLE).ok()?;
    let back = match step {
        Step::Body { place, .. } => body(place, &contents.payloads[place]),
        Step::Settings { place, .. } => settings(place, &contents.payloads[place]),
        Step::Drop { place } => insert(place, &contents.payloads[place]),
        Step::Insert { place, .. } => Step::Drop { place },
        Step::Key { .. } => key(contents),
        Step::Protection { .. } | Step::Blank { .. } => protection(contents),
    };
    Some((step, back))
}

/// The step that gives contents with cleared protections their own, if these are not zeros.
#[must_use]
pub fn put_back(contents: &Contents) -> Option<Step> {
    (*contents != contents.cleared()).then(|| protection(contents))
}

/// These contents from a blank with others, its payloads in any order.
fn built(contents: &Contents, random: &mut Random) -> Script {
    let key_id = random.word() >> random.up_to(63);
    let [primary, secondary] = steps::draw_protections(random);
    let mut script = Script::from(plain::blank(key_id, &primary, &secondary));
    let mut places: Vec<usize> = (0..contents.payloads.len()).collect();
    shuffle(&mut places, random);
    let mut there: Vec<usize> = Vec::new();
    let mut steps = Vec::new();
    for place in places {
        let before = there.iter().filter(|&&other| other < place).count();
        steps.push(insert(before, &contents.payloads[place]));
        there.push(place);
    }
    steps.insert(random.up_to(steps.len()), key(contents));
    // One that comes later clears these.
    let place = random.up_to(steps.len() - 1);
    steps.insert(place, any_protection(contents, random));
    steps.extend(put_back(contents));
    script.edits = steps.into_iter().map(|step| (step, AMPLE)).collect();
    script
}

/// Steps after which one thing is different, and protections may be cleared; none where the contents lack that thing.
fn one_thing(contents: &Contents, thing: usize, random: &mut Random) -> Option<Vec<Step>> {
    let count = contents.payloads.len();
    let place = random.up_to(count.saturating_sub(1));
    let mut payload = contents.payloads.get(place).cloned();
    let steps = match (thing, &mut payload) {
        (0, Some(payload)) if !payload.body.is_empty() => {
            let bit = random.up_to(8 * payload.body.len() - 1);
            payload.body[bit / 8] ^= 0x80 >> (bit % 8);
            vec![body(place, payload)]
        }
        (1, Some(payload)) => {
            payload.body.push(0);
            vec![body(place, payload)]
        }
        (2, Some(payload)) => {
            other_setting(payload, random);
            vec![settings(place, payload)]
        }
        (3, Some(payload)) => {
            payload.id ^= if payload.id == 1 { 2 } else { 1 };
            vec![Step::Drop { place }, insert(place, payload)]
        }
        (4, Some(payload)) if place > 0 => {
            vec![Step::Drop { place }, insert(place - 1, payload)]
        }
        (5, Some(payload)) => vec![insert(place, payload)],
        (6, _) => {
            let mut other = contents.clone();
            let bytes = if random.one_in(2) && !other.secondary.is_empty() {
                &mut other.secondary
            } else {
                &mut other.primary
            };
            let place = random.up_to(bytes.len() - 1);
            bytes[place] ^= 1 << random.up_to(7);
            vec![protection(&other)]
        }
        (7, _) => {
            // Zeros before or after, which a number would not show.
            let mut other = contents.clone();
            let longer = match other.secondary.len() {
                0 => 1,
                1 => 4,
                4 => 16,
                _ => 0,
            };
            other.secondary.resize(longer, 0);
            vec![protection(&other)]
        }
        (CLEARED, payload) if *contents != contents.cleared() => {
            match (random.up_to(3), payload) {
                // For what is there already.
                (0, _) => vec![key(contents)],
                (1, Some(payload)) => vec![body(place, payload)],
                (2, Some(payload)) => vec![settings(place, payload)],
                _ => {
                    let kind = random.up_to(4);
                    let (step, back) = there_and_back(contents, kind, random)?;
                    vec![step, back]
                }
            }
        }
        _ => return None,
    };
    Some(steps)
}

/// One setting flipped, made another number, or 0 where it was absent.
fn other_setting(payload: &mut Payload, random: &mut Random) {
    let settings = &mut payload.settings;
    let turned = |value: Option<u64>| match value {
        Some(0) => None,
        Some(value) => Some(value ^ 1),
        None => Some(0),
    };
    match random.up_to(3) {
        0 => settings.codec = !settings.codec,
        1 => settings.duration = turned(settings.duration),
        2 => settings.group_id = turned(settings.group_id),
        _ => match (&mut settings.priority, &mut settings.create) {
            (Some(priority), _) if random.one_in(2) => *priority ^= 1,
            (_, Some(create)) => *create = !*create,
            _ => settings.codec = !settings.codec,
        },
    }
}

/// The step that leaves the payload's body as it is.
#[must_use]
pub fn body(place: usize, payload: &Payload) -> Step {
    Step::Body {
        place,
        body: payload.body.clone(),
    }
}

/// The step that leaves the payload's settings as they are.
#[must_use]
pub fn settings(place: usize, payload: &Payload) -> Step {
    Step::Settings {
        place,
        settings: plain::form(&payload.settings),
    }
}

fn insert(place: usize, payload: &Payload) -> Step {
    Step::Insert {
        place,
        id: payload.id,
        settings: plain::form(&payload.settings),
        body: payload.body.clone(),
    }
}

/// The step that leaves the key id as it is.
#[must_use]
pub fn key(contents: &Contents) -> Step {
    Step::Key {
        key_id: contents.key_id,
    }
}

/// The step that leaves the protections as they are.
#[must_use]
pub fn protection(contents: &Contents) -> Step {
    Step::Protection {
        primary: contents.primary.clone(),
        secondary: contents.secondary.clone(),
    }
}

/// Protections of the same lengths.
fn any_protection(contents: &Contents, random: &mut Random) -> Step {
    Step::Protection {
        primary: random.bytes(contents.primary.len()),
        secondary: random.bytes(contents.secondary.len()),
    }
}

pub fn shuffle<T>(all: &mut [T], random: &mut Random) {
    for last in (1..all.len()).rev() {
        all.swap(last, random.up_to(last));
    }
}
