//! A greedy search for the smallest case that still fails.

use differential::carrier::{Ask, HEADER};
use differential::case::{Cursor, Request};
use differential::contents::{Contents, Settings};
use differential::facts;
use differential::plain::{self, Edit, Step};
use differential::recipe::{self, Asked};
use std::ops::Range;
use std::time::{Duration, Instant};

/// Longer than a small case needs, short enough to wait for on a long slice.
pub const PATIENCE: Duration = Duration::from_secs(20);

/// Cases that are smaller in one respect and larger in none.
pub type Smaller<'a, T> = Box<dyn Iterator<Item = T> + 'a>;

/// Steps from a failing case to a smaller one that fails, until there is none, for as long as this.
pub fn smallest<T>(
    patience: Duration,
    mut failing: T,
    smaller: fn(&T) -> Smaller<'_, T>,
    fails: impl Fn(&T) -> bool,
) -> T {
    let end = Instant::now() + patience;
    loop {
        let next = smaller(&failing)
            .take_while(|_| Instant::now() < end)
            .find(|case| fails(case));
        match next {
            Some(case) => failing = case,
            None => return failing,
        }
    }
}

/// A slice with one call on it.
#[derive(Clone)]
pub struct Case {
    pub bytes: Vec<u8>,
    pub request: Request,
}

/// Shorter slices first, then fewer ones in the bytes, then smaller numbers.
pub fn smaller_cases(case: &Case) -> Smaller<'_, Case> {
    let with_bytes = |bytes| Case { bytes, ..*case };
    Box::new(
        cut_at_the_end(case)
            .chain(cut_at_the_start(case))
            .chain(cut_with_the_argument(case))
            .chain(
                zeroed(&case.bytes)
                    .chain(cleared(&case.bytes))
                    .map(with_bytes),
            )
            .chain(smaller_numbers(case))
            .chain(smaller_limits(case)),
    )
}

fn cut_at_the_end(case: &Case) -> impl Iterator<Item = Case> + '_ {
    let length = case.bytes.len();
    amounts(length).map(move |dropped| Case {
        bytes: case.bytes[..length - dropped].to_vec(),
        ..*case
    })
}

/// Whole bytes before the cursor; it goes with its bits.
fn cut_at_the_start(case: &Case) -> impl Iterator<Item = Case> + '_ {
    let Cursor { position, end } = case.request.cursor;
    let before = position.min(end) / 8;
    amounts(before.min(case.bytes.len())).map(move |dropped| {
        let bits = 8 * dropped;
        Case {
            bytes: case.bytes[dropped..].to_vec(),
            request: Request {
                cursor: Cursor::new(position - bits, end - bits),
                ..case.request
            },
        }
    })
}

/// The first bytes of what is read or taken.
fn cut_with_the_argument(case: &Case) -> impl Iterator<Item = Case> + '_ {
    let Cursor { position, end } = case.request.cursor;
    let within = end.min(case.request.argument) / 8;
    amounts(within.min(case.bytes.len())).map(move |dropped| {
        let bits = 8 * dropped;
        Case {
            bytes: case.bytes[dropped..].to_vec(),
            request: Request {
                cursor: Cursor::new(position, end - bits),
                argument: case.request.argument - bits,
                ..case.request
            },
        }
    })
}

/// Runs of bytes, long ones first, set to zero.
fn zeroed(bytes: &[u8]) -> impl Iterator<Item = Vec<u8>> + '_ {
    runs(0..bytes.len())
        .filter(|run| bytes[run.clone()].iter().any(|&byte| byte != 0))
        .map(|run| {
            let mut bytes = bytes.to_vec();
            bytes[run].fill(0);
            bytes
        })
}

/// Single ones set to zero.
fn cleared(bytes: &[u8]) -> impl Iterator<Item = Vec<u8>> + '_ {
    let bits = (0..bytes.len()).flat_map(|place| (0..8).map(move |bit| (place, 1 << bit)));
    bits.filter(|&(place, mask)| bytes[place] & mask != 0)
        .map(|(place, mask)| {
            let mut bytes = bytes.to_vec();
            bytes[place] ^= mask;
            bytes
        })
}

/// Each number alone, and those pairs that have to fall together.
fn smaller_numbers(case: &Case) -> impl Iterator<Item = Case> + '_ {
    let Cursor { position, end } = case.request.cursor;
    let argument = case.request.argument;
    let moved = amounts(position.min(end)).map(move |by| (position - by, end - by, argument));
    let narrowed = amounts(end.min(argument)).map(move |by| (position, end - by, argument - by));
    let ends = amounts(end).map(move |by| (position, end - by, argument));
    let positions = amounts(position).map(move |by| (position - by, end, argument));
    let arguments = amounts(argument).map(move |by| (position, end, argument - by));
    let numbers = moved
        .chain(narrowed)
        .chain(ends)
        .chain(positions)
        .chain(arguments);
    numbers.map(move |(position, end, argument)| Case {
        bytes: case.bytes.clone(),
        request: Request {
            cursor: Cursor::new(position, end),
            argument,
            ..case.request
        },
    })
}

/// Fewer groups of a field.
fn smaller_limits(case: &Case) -> impl Iterator<Item = Case> + '_ {
    (0..case.request.limit).map(|limit| Case {
        bytes: case.bytes.clone(),
        request: Request {
            limit,
            ..case.request
        },
    })
}

/// A carrier and what is asked of it.
#[derive(Clone)]
pub struct CarrierCase {
    pub bytes: Vec<u8>,
    pub ask: Ask,
}

/// Less in the carrier first, then shorter ones, fewer ones in the bytes, less lent, and smaller numbers.
pub fn smaller_carriers(case: &CarrierCase) -> Smaller<'_, CarrierCase> {
    let bytes = &case.bytes;
    let shorter = smaller_bytes(bytes).map(|bytes| CarrierCase { bytes, ..*case });
    let lent = case.ask.lent();
    let asked = amounts(lent).filter_map(move |less| case.ask.with_lent(lent - less));
    let less = asked.map(|ask| CarrierCase {
        bytes: bytes.clone(),
        ask,
    });
    Box::new(
        with_an_earlier_place(case)
            .chain(shorter)
            .chain(less)
            .chain(with_a_smaller_profile(case))
            .chain(with_a_smaller_ordinal(case)),
    )
}

/// A carrier with less in it, shorter, or with fewer ones.
fn smaller_bytes(bytes: &[u8]) -> impl Iterator<Item = Vec<u8>> + '_ {
    with_less_in_it(bytes)
        .chain(cut(bytes))
        .chain(without_runs(bytes))
        .chain(zeroed(bytes))
        .chain(cleared(bytes))
}

fn cut(bytes: &[u8]) -> impl Iterator<Item = Vec<u8>> + '_ {
    amounts(bytes.len()).map(|dropped| bytes[..bytes.len() - dropped].to_vec())
}

/// The smallest number that is compat, for a larger one.
fn with_a_smaller_profile(case: &CarrierCase) -> Option<CarrierCase> {
    let is_larger = matches!(case.ask, Ask::Verdict { profile } if profile > 1);
    is_larger.then(|| CarrierCase {
        bytes: case.bytes.clone(),
        ask: Ask::Verdict { profile: 1 },
    })
}

fn with_a_smaller_ordinal(case: &CarrierCase) -> impl Iterator<Item = CarrierCase> + '_ {
    let asked = match case.ask {
        Ask::Find { id, ordinal } => Some((id, ordinal)),
        _ => None,
    };
    asked.into_iter().flat_map(move |(id, ordinal)| {
        [0, 1, ordinal / 2, ordinal.saturating_sub(1)]
            .into_iter()
            .filter(move |less| *less < ordinal)
            .map(move |ordinal| CarrierCase {
                bytes: case.bytes.clone(),
                ask: Ask::Find { id, ordinal },
            })
    })
}

/// The body that is asked for, with fewer payloads before it.
fn with_an_earlier_place(case: &CarrierCase) -> impl Iterator<Item = CarrierCase> + '_ {
    let asked = match case.ask {
        Ask::MoveBody { place, .. } | Ask::ChooseBody { place, .. } => Some(place),
        _ => None,
    };
    asked.into_iter().flat_map(move |place| {
        let fewer = with_fewer_before(&case.bytes, place);
        fewer.map(move |(bytes, place)| CarrierCase {
            bytes,
            ask: case.ask.at(place),
        })
    })
}

/// A carrier without some of the payloads before a place that it has, and where that is then.
fn with_fewer_before(bytes: &[u8], place: usize) -> impl Iterator<Item = (Vec<u8>, usize)> {
    let found = facts::reading(bytes).ok();
    let found = found.filter(|found| place < found.contents.payloads.len());
    found.into_iter().flat_map(move |found| {
        amounts(place).map(move |dropped| {
            let mut smaller = found.contents.clone();
            smaller.payloads.drain(..dropped);
            (smaller.written().0, place - dropped)
        })
    })
}

/// A carrier that the original accepts, written anew from smaller contents.
fn with_less_in_it(bytes: &[u8]) -> impl Iterator<Item = Vec<u8>> + '_ {
    let found = facts::reading(bytes).ok().into_iter();
    found.flat_map(move |found| {
        smaller_contents(&found.contents).filter_map(move |change| {
            let mut smaller = found.contents.clone();
            change(&mut smaller);
            let after = &bytes[found.consumed..];
            (smaller != found.contents).then(|| [&smaller.written().0, after].concat())
        })
    })
}

/// What makes contents smaller, or leaves them as they are.
type Change = Box<dyn Fn(&mut Contents)>;

/// Fewer payloads first, then shorter bodies, then plainer ones.
fn smaller_contents(contents: &Contents) -> impl Iterator<Item = Change> {
    let sizes: Vec<usize> = contents
        .payloads
        .iter()
        .map(|payload| payload.body.len())
        .collect();
    let fewer = runs(0..sizes.len()).map(|run| -> Change {
        Box::new(move |contents| drop(contents.payloads.drain(run.clone())))
    });
    let plainer = [
        |contents: &mut Contents| contents.key_id = 0,
        |contents: &mut Contents| contents.primary.truncate(1),
        |contents: &mut Contents| contents.secondary.clear(),
        // All at once, so that equal ones stay equal.
        |contents: &mut Contents| {
            for payload in &mut contents.payloads {
                payload.settings.group_id = payload.settings.group_id.map(|_| 0);
            }
        },
    ];
    let plainer = plainer
        .into_iter()
        .map(|change| -> Change { Box::new(change) });
    let payloads = sizes.into_iter().enumerate();
    let payloads = payloads.flat_map(|(place, size)| smaller_payload(place, size));
    fewer.chain(plainer).chain(payloads)
}

fn smaller_payload(place: usize, size: usize) -> impl Iterator<Item = Change> {
    let shorter = amounts(size).map(move |dropped| -> Change {
        Box::new(move |contents| contents.payloads[place].body.truncate(size - dropped))
    });
    let settings: Change =
        Box::new(move |contents| contents.payloads[place].settings = Settings::LEAST);
    let id: Change = Box::new(move |contents| contents.payloads[place].id = 1);
    shorter.chain([settings, id])
}

/// Runs of bytes after the header taken out, long ones first; the declared length goes along.
fn without_runs(bytes: &[u8]) -> impl Iterator<Item = Vec<u8>> + '_ {
    runs(HEADER.min(bytes.len())..bytes.len()).filter_map(|run| {
        let declared = u16::from_be_bytes([bytes[2], bytes[3]]);
        let declared = declared.checked_sub(u16::try_from(run.len()).ok()?)?;
        let mut bytes = bytes.to_vec();
        bytes.drain(run);
        bytes[2..HEADER].copy_from_slice(&declared.to_be_bytes());
        Some(bytes)
    })
}

/// A step on a source, and the length of its destination.
#[derive(Clone)]
pub struct EditCase {
    pub source: Vec<u8>,
    pub step: Step,
    pub destination: usize,
}

impl EditCase {
    #[must_use]
    pub fn edit(&self) -> Edit<'_> {
        Edit {
            source: &self.source,
            step: &self.step,
            destination: self.destination,
        }
    }

    /// How long a destination has to be for the edit to be accepted.
    fn needed(&self) -> Option<usize> {
        let endless = Edit {
            destination: usize::MAX,
            ..self.edit()
        };
        let after = endless.after(&facts::reading(&self.source));
        after.ok().map(|contents| plain::length(&contents))
    }
}

/// Less in the source first, then in the arguments, then a shorter destination.
pub fn smaller_edits(case: &EditCase) -> Smaller<'_, EditCase> {
    let with_source = |source| EditCase {
        source,
        ..case.clone()
    };
    let steps = smaller_steps(&case.step).map(|step| EditCase {
        step,
        ..case.clone()
    });
    let needed = case.needed();
    let smaller = with_an_earlier_step(case)
        .chain(smaller_bytes(&case.source).map(with_source))
        .chain(steps)
        .flat_map(move |smaller| [at_the_same_distance(needed, &smaller), Some(smaller)]);
    let shorter = amounts(case.destination).map(|less| EditCase {
        destination: case.destination - less,
        ..case.clone()
    });
    Box::new(smaller.flatten().chain(shorter))
}

/// A destination that is as much too long or too short as when so much was needed.
fn at_the_same_distance(needed: Option<usize>, smaller: &EditCase) -> Option<EditCase> {
    let less = needed?.checked_sub(smaller.needed()?)?;
    Some(EditCase {
        destination: smaller.destination.checked_sub(less)?,
        ..smaller.clone()
    })
}

/// The same step with fewer payloads before its place.
fn with_an_earlier_step(case: &EditCase) -> impl Iterator<Item = EditCase> + '_ {
    let place = case.step.place(0).map(|(place, _)| place);
    place.into_iter().flat_map(|place| {
        let fewer = with_fewer_before(&case.source, place);
        fewer.map(|(source, place)| EditCase {
            source,
            step: at_place(&case.step, place),
            destination: case.destination,
        })
    })
}

/// Earlier places, smaller numbers, settings of the fewest bits, and shorter slices of fewer ones.
fn smaller_steps(step: &Step) -> impl Iterator<Item = Step> + '_ {
    let place = step.place(0).map_or(0, |(place, _)| place);
    let places = amounts(place).map(move |less| at_place(step, place - less));
    let number = number(step);
    let numbers = amounts(number as usize).map(move |less| with_number(step, number - less as u64));
    let [first, second] = step.slices();
    let has_settings = matches!(step, Step::Settings { .. } | Step::Insert { .. });
    let least = has_settings.then(|| plain::form(&Settings::LEAST));
    let least = least.filter(|least| least != first);
    let firsts = least.into_iter().chain(cut(first)).chain(zeroed(first));
    let seconds = cut(second).chain(zeroed(second));
    places
        .chain(numbers)
        .chain(firsts.map(move |first| with_slices(step, [first, second.to_vec()])))
        .chain(seconds.map(move |second| with_slices(step, [first.to_vec(), second])))
}

/// A recipe and, where it is run, the source and the lengths of the buffers.
#[derive(Clone)]
pub struct RecipeCase {
    pub file: Vec<u8>,
    pub source: Vec<u8>,
    pub rooms: Option<[usize; 2]>,
}

impl RecipeCase {
    #[must_use]
    pub fn new(asked: &Asked) -> Self {
        let source = asked.run.map(|(source, _)| source.to_vec());
        Self {
            file: asked.file.to_vec(),
            source: source.unwrap_or_default(),
            rooms: asked.run.map(|(_, rooms)| rooms),
        }
    }

    #[must_use]
    pub fn asked(&self) -> Asked<'_> {
        Asked {
            file: &self.file,
            run: self.rooms.map(|rooms| (&self.source[..], rooms)),
        }
    }
}

/// Less in the file first, then in the source, then shorter buffers.
pub fn smaller_recipes(case: &RecipeCase) -> Smaller<'_, RecipeCase> {
    let file = &case.file;
    let files = with_smaller_edits(file)
        .chain(cut(file))
        .chain(zeroed(file))
        .chain(cleared(file))
        .map(|file| RecipeCase {
            file,
            ..case.clone()
        });
    let sources = smaller_bytes(&case.source).flat_map(|source| {
        // Buffers as much too long or too short as before, or as they are.
        let less = case.source.len().saturating_sub(source.len());
        let rooms = case
            .rooms
            .map(|rooms| rooms.map(|room| room.saturating_sub(less)));
        [rooms, case.rooms].map(|rooms| RecipeCase {
            file: case.file.clone(),
            source: source.clone(),
            rooms,
        })
    });
    Box::new(files.chain(sources).chain(with_shorter_buffers(case)))
}

fn with_shorter_buffers(case: &RecipeCase) -> impl Iterator<Item = RecipeCase> + '_ {
    let buffers = case
        .rooms
        .into_iter()
        .flat_map(|rooms| [(rooms, 0), (rooms, 1)]);
    buffers.flat_map(move |(rooms, place)| {
        amounts(rooms[place]).map(move |less| {
            let mut shorter = rooms;
            shorter[place] -= less;
            RecipeCase {
                rooms: Some(shorter),
                ..case.clone()
            }
        })
    })
}

/// A recipe that is in order, written anew from the same edits, from fewer, and from smaller ones.
fn with_smaller_edits(file: &[u8]) -> impl Iterator<Item = Vec<u8>> + '_ {
    let lists = recipe::edits(file).ok().into_iter().flat_map(smaller_lists);
    let files = lists.filter_map(|list| recipe::written(&list));
    files.filter(|smaller| size(smaller) < size(file))
}

/// Its bytes first, then the ones in them.
fn size(file: &[u8]) -> (usize, u32) {
    let ones = file.iter().map(|byte| byte.count_ones());
    (file.len(), ones.sum())
}

fn smaller_lists(list: Vec<Step>) -> impl Iterator<Item = Vec<Step>> {
    let (all, same) = (list.clone(), list.clone());
    let fewer = runs(0..all.len()).map(move |run| {
        let mut fewer = all.clone();
        fewer.drain(run);
        fewer
    });
    let smaller = (0..list.len()).flat_map(move |place| {
        let steps: Vec<Step> = smaller_steps(&list[place]).collect();
        let list = list.clone();
        steps.into_iter().map(move |step| {
            let mut smaller = list.clone();
            smaller[place] = step;
            smaller
        })
    });
    [same].into_iter().chain(fewer).chain(smaller)
}

fn at_place(step: &Step, to: usize) -> Step {
    let mut moved = step.clone();
    if let Step::Body { place, .. }
    | Step::Settings { place, .. }
    | Step::Drop { place }
    | Step::Insert { place, .. } = &mut moved
    {
        *place = to;
    }
    moved
}

/// The id or key id that is named.
fn number(step: &Step) -> u64 {
    match *step {
        Step::Insert { id, .. } => id,
        Step::Key { key_id } | Step::Blank { key_id, .. } => key_id,
        _ => 0,
    }
}

fn with_number(step: &Step, number: u64) -> Step {
    let mut smaller = step.clone();
    if let Step::Insert { id: old, .. }
    | Step::Key { key_id: old }
    | Step::Blank { key_id: old, .. } = &mut smaller
    {
        *old = number;
    }
    smaller
}

fn with_slices(step: &Step, [first, second]: [Vec<u8>; 2]) -> Step {
    let mut smaller = step.clone();
    match &mut smaller {
        Step::Body { body, .. } => *body = first,
        Step::Settings { settings, .. } => *settings = first,
        Step::Insert { settings, body, .. } => (*settings, *body) = (first, second),
        Step::Protection { primary, secondary }
        | Step::Blank {
            primary, secondary, ..
        } => (*primary, *secondary) = (first, second),
        Step::Drop { .. } | Step::Key { .. } => {}
    }
    smaller
}

/// The parts of a range, of each size that is tried.
fn runs(range: Range<usize>) -> impl Iterator<Item = Range<usize>> {
    let Range { start, end } = range;
    amounts(end - start).flat_map(move |size| {
        (start..end)
            .step_by(size)
            .map(move |start| start..end.min(start + size))
    })
}

/// What to take off: all, then each power of two, so that any bound is reached soon.
fn amounts(all: usize) -> impl Iterator<Item = usize> {
    let powers = (0..usize::BITS).rev().map(|power| 1 << power);
    [all]
        .into_iter()
        .chain(powers)
        .filter(move |&amount| 0 < amount && amount <= all)
}
