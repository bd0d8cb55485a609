//! Wrong edits in the library's place, each of which the groups named with it have to catch.

use crate::lent::Lent;
use crate::library::Replied;
use crate::miscounts::{self, Miscount};
use crate::misnumbers::{self, Misnumber};
use crate::recipe_mistakes::{self, Fault};
use crate::report::{Difference, Group, Tally};
use crate::shrink;
use differential::carrier::{
    Reading, Refusal, Reply, BYTES_AFTER, DESTINATION_TOO_SHORT, HEADER, HEADER_CUT, MOST_DECLARED,
    NOT_WRITABLE, NO_SUCH_PLACE, TOO_LONG, TRUNCATED,
};
use differential::case::ACCEPTED;
use differential::contents::Contents;
use differential::facts;
use differential::options::Options;
use differential::plain::{self, Edit, Step};
use differential::random::Random;
use differential::shapes::MOST_DURATION;
use std::cell::Cell;
use std::process::ExitCode;
use std::time::Duration;

/// What stands in for the library: an answer, and the first bytes of the destination.
pub type Player = fn(&Edit) -> Played;

pub struct Played {
    pub reply: Reply,
    pub written: Vec<u8>,
}

thread_local! {
    static PLAYER: Cell<Option<Player>> = const { Cell::new(None) };
    /// What the one who plays it does wrong with recipes.
    static FAULT: Cell<Option<Fault>> = const { Cell::new(None) };
    /// How the one who plays it counts groups.
    static MISCOUNT: Cell<Option<Miscount>> = const { Cell::new(None) };
    /// How the one who plays it numbers payloads.
    static MISNUMBER: Cell<Option<Misnumber>> = const { Cell::new(None) };
    /// Whether the player that makes one edit only has made it.
    static MADE_ONE: Cell<bool> = const { Cell::new(false) };
}

/// Who plays the library's part, if it is not the library.
#[must_use]
pub fn player() -> Option<Player> {
    PLAYER.get()
}

/// How recipes are followed, if not by the library.
#[must_use]
pub fn fault() -> Option<Fault> {
    FAULT.get()
}

/// How groups are counted, if not by the library.
#[must_use]
pub fn miscount() -> Option<Miscount> {
    MISCOUNT.get()
}

/// How payloads are numbered, if not by the library.
#[must_use]
pub fn misnumber() -> Option<Misnumber> {
    MISNUMBER.get()
}

/// How long a difference is shrunk; one that was looked for is not printed.
#[must_use]
pub fn patience() -> Duration {
    match PLAYER.get() {
        None => shrink::PATIENCE,
        Some(_) => Duration::ZERO,
    }
}

/// The player's answer, after it wrote to what it was lent.
#[must_use]
pub fn played(player: Player, edit: &Edit, lent: &mut Lent) -> Replied {
    lent.lend(edit.destination);
    let Played { reply, written } = player(edit);
    lent.write(&written);
    Replied {
        reply,
        frame_intact: true,
    }
}

struct Mistake {
    name: &'static str,
    player: Player,
    /// By their names.
    caught_by: &'static [&'static str],
}

const SHAPES: &str = "each edit on carriers of every shape";
const ARGUMENTS: &str = "edits with every edge of their arguments";
const DAMAGED: &str = "edits of damaged carriers";
const NOES: &str = "edits with several questions answered no";
const LIMITS: &str = "edits at their limits";
const BLANK: &str = "blank carriers";
const LISTS: &str = "lists of edits, two at a time";

const MISTAKES: [Mistake; 32] = [
    Mistake {
        name: "copies the source",
        player: copies_the_source,
        caught_by: &[SHAPES, ARGUMENTS, NOES, LIMITS, LISTS],
    },
    Mistake {
        name: "refuses each edit",
        player: |_| refused(NOT_WRITABLE, 0),
        caught_by: &[SHAPES, ARGUMENTS, DAMAGED, NOES, LIMITS, BLANK, LISTS],
    },
    Mistake {
        name: "makes the first edit and reports the others",
        player: makes_one,
        caught_by: &[SHAPES, LISTS],
    },
    Mistake {
        name: "19 without measuring",
        player: does_not_measure,
        caught_by: &[SHAPES, LISTS],
    },
    Mistake {
        name: "19 with the declared length",
        player: |edit| match faithful(edit) {
            played if played.reply.number == DESTINATION_TOO_SHORT => {
                refused(DESTINATION_TOO_SHORT, played.reply.words[0] - HEADER as u64)
            }
            played => played,
        },
        caught_by: &[SHAPES, NOES, BLANK, LISTS],
    },
    Mistake {
        name: "leaves the protection with another body",
        player: |edit| leaves_with(edit, "edit_body"),
        caught_by: &[SHAPES, ARGUMENTS, NOES, LIMITS, LISTS],
    },
    Mistake {
        name: "leaves the protection with other settings",
        player: |edit| leaves_with(edit, "edit_settings"),
        caught_by: &[SHAPES, ARGUMENTS, NOES, LIMITS, LISTS],
    },
    Mistake {
        name: "leaves the protection with a drop",
        player: |edit| leaves_with(edit, "edit_drop"),
        caught_by: &[SHAPES, NOES, LIMITS, LISTS],
    },
    Mistake {
        name: "leaves the protection with an insert",
        player: |edit| leaves_with(edit, "edit_insert"),
        caught_by: &[SHAPES, ARGUMENTS, NOES, LIMITS, BLANK, LISTS],
    },
    Mistake {
        name: "leaves the protection with another key id",
        player: |edit| leaves_with(edit, "edit_key"),
        caught_by: &[SHAPES, ARGUMENTS, NOES, LIMITS, BLANK, LISTS],
    },
    Mistake {
        name: "leaves the protection where nothing else changes",
        player: |edit| {
            leaves(edit, |contents, source| {
                if contents.cleared() == source.cleared() {
                    put_protections(contents, source);
                }
            })
        },
        caught_by: &[SHAPES, LISTS],
    },
    Mistake {
        name: "leaves the secondary protection",
        player: |edit| {
            leaves(edit, |contents, source| {
                contents.secondary.clone_from(&source.secondary);
            })
        },
        caught_by: &[SHAPES, ARGUMENTS, BLANK, LISTS],
    },
    Mistake {
        name: "clears an octet too few",
        player: |edit| {
            leaves(edit, |contents, source| match contents.secondary.len() {
                0 => keep_last(&mut contents.primary, &source.primary),
                _ => keep_last(&mut contents.secondary, &source.secondary),
            })
        },
        caught_by: &[SHAPES, ARGUMENTS, BLANK, LISTS],
    },
    Mistake {
        name: "clears from the second bit on",
        player: |edit| {
            leaves(edit, |contents, source| {
                contents.primary[0] = source.primary[0] & 0x80;
            })
        },
        caught_by: &[SHAPES, ARGUMENTS, BLANK, LISTS],
    },
    Mistake {
        name: "sets a bit of a cleared protection",
        player: |edit| leaves(edit, |contents, _| contents.primary[0] ^= 1),
        caught_by: &[SHAPES, LISTS],
    },
    Mistake {
        name: "takes a cleared secondary protection out",
        player: |edit| leaves(edit, |contents, _| contents.secondary.clear()),
        caught_by: &[SHAPES, ARGUMENTS, BLANK, LISTS],
    },
    Mistake {
        name: "swaps the lengths of cleared protections",
        player: |edit| {
            leaves(edit, |contents, _| {
                if !contents.secondary.is_empty() {
                    std::mem::swap(&mut contents.primary, &mut contents.secondary);
                }
            })
        },
        caught_by: &[SHAPES, ARGUMENTS, BLANK, LISTS],
    },
    Mistake {
        name: "clears the protections that it is given",
        player: |edit| {
            changed(edit, |contents| {
                if edit.step.has_source() {
                    *contents = contents.cleared();
                }
            })
        },
        caught_by: &[SHAPES, ARGUMENTS, NOES, LIMITS, BLANK, LISTS],
    },
    Mistake {
        name: "clears a blank's protections",
        player: |edit| {
            changed(edit, |contents| {
                if !edit.step.has_source() {
                    *contents = contents.cleared();
                }
            })
        },
        caught_by: &[BLANK],
    },
    Mistake {
        name: "puts settings at the neighbour",
        player: |edit| instead(edit, at_the_neighbour),
        caught_by: &[SHAPES, LISTS],
    },
    Mistake {
        name: "inserts after the place",
        player: |edit| instead(edit, after_the_place),
        caught_by: &[SHAPES, LISTS],
    },
    Mistake {
        name: "writes before it refuses",
        player: |edit| match faithful(edit) {
            played if played.reply.number == DESTINATION_TOO_SHORT => Played {
                written: vec![0x58; edit.destination.min(2)],
                ..played
            },
            played => played,
        },
        caught_by: &[SHAPES, BLANK, LISTS],
    },
    Mistake {
        name: "writes a byte after the carrier",
        player: |edit| {
            let mut played = faithful(edit);
            if played.reply.number == ACCEPTED && played.written.len() < edit.destination {
                played.written.push(0);
            }
            played
        },
        caught_by: &[SHAPES, BLANK, LISTS],
    },
    Mistake {
        name: "answers 1 for 21",
        player: |edit| {
            let mut played = faithful(edit);
            if played.reply.number == HEADER_CUT {
                played.reply.number = TRUNCATED;
            }
            played
        },
        caught_by: &[DAMAGED, NOES],
    },
    Mistake {
        name: "asks for the place before the bytes after",
        player: |edit| match faithful(edit) {
            played if played.reply.number == BYTES_AFTER => match place_of(edit) {
                Some((place, none)) if place >= none => refused(NO_SUCH_PLACE, 0),
                _ => played,
            },
            played => played,
        },
        caught_by: &[DAMAGED, NOES],
    },
    Mistake {
        name: "asks for the destination before the length",
        player: |edit| match faithful(edit) {
            played if played.reply.number == TOO_LONG && edit.destination < 65_540 => {
                refused(DESTINATION_TOO_SHORT, 65_540)
            }
            played => played,
        },
        caught_by: &[ARGUMENTS, NOES, LIMITS, LISTS],
    },
    Mistake {
        name: "takes any presence but 0 for 1",
        player: |edit| instead(edit, with_any_presence),
        caught_by: &[ARGUMENTS],
    },
    Mistake {
        name: "leaves out a duration of 0",
        player: |edit| {
            changed(edit, |contents| {
                for payload in &mut contents.payloads {
                    let duration = &mut payload.settings.duration;
                    *duration = duration.filter(|value| *value > 0);
                }
            })
        },
        caught_by: &[SHAPES, ARGUMENTS, LISTS],
    },
    Mistake {
        name: "takes a duration of one too many",
        player: |edit| instead(edit, with_a_long_duration),
        caught_by: &[ARGUMENTS, LIMITS],
    },
    Mistake {
        name: "refuses the longest carrier",
        player: |edit| match faithful(edit) {
            played if played.written.len() == HEADER + MOST_DECLARED => refused(TOO_LONG, 0),
            played => played,
        },
        caught_by: &[LIMITS],
    },
    Mistake {
        name: "takes 8 bits too many for the longest carrier",
        player: |edit| match faithful(edit) {
            played if played.reply.number == TOO_LONG => {
                Played::accepted(vec![0; edit.destination], HEADER + MOST_DECLARED + 1)
            }
            played => played,
        },
        caught_by: &[ARGUMENTS, NOES, LIMITS, LISTS],
    },
    Mistake {
        name: "writes a blank's key id as a byte",
        player: |edit| {
            changed(edit, |contents| {
                if !edit.step.has_source() {
                    contents.key_id &= 0xff;
                }
            })
        },
        caught_by: &[BLANK],
    },
];

/// Runs all groups of edits against plain contents in the library's place, and those named against each mistake; and so the
/// groups of readings against wrong numbers of groups and wrong ordinals.
#[must_use]
pub fn run(edits: &[&[Group]], readings: &[&[Group]], options: &Options) -> ExitCode {
    let groups: Vec<&Group> = edits.iter().copied().flatten().collect();
    let readings: Vec<&Group> = readings.iter().copied().flatten().collect();
    let mut failed = false;
    PLAYER.set(Some(faithful));
    FAULT.set(Some(Fault::None));
    for group in &groups {
        failed |= !passes(group, options);
    }
    for mistake in &MISTAKES {
        PLAYER.set(Some(mistake.player));
        failed |= !is_caught(mistake.name, mistake.caught_by, &groups, options);
    }
    PLAYER.set(Some(faithful));
    for mistake in &recipe_mistakes::MISTAKES {
        FAULT.set(Some(mistake.fault));
        failed |= !is_caught(mistake.name, mistake.caught_by, &groups, options);
    }
    FAULT.set(None);
    failed |= !check_readings(&readings, options);
    PLAYER.set(None);
    if failed {
        println!("differential: self-check FAILED");
        ExitCode::FAILURE
    } else {
        println!("differential: each mistake was caught");
        ExitCode::SUCCESS
    }
}

/// The mistakes of readings, with edits that are made as they should be.
fn check_readings(readings: &[&Group], options: &Options) -> bool {
    let mut failed = false;
    MISCOUNT.set(Some(Miscount::None));
    for name in miscounts::CATCHING {
        failed |= !passes(named(name, readings), options);
    }
    for mistake in &miscounts::MISTAKES {
        MISCOUNT.set(Some(mistake.miscount));
        failed |= !is_caught(mistake.name, mistake.caught_by, readings, options);
    }
    MISCOUNT.set(None);
    MISNUMBER.set(Some(Misnumber::None));
    for name in misnumbers::CATCHING {
        failed |= !passes(named(name, readings), options);
    }
    for mistake in &misnumbers::MISTAKES {
        MISNUMBER.set(Some(mistake.misnumber));
        failed |= !is_caught(mistake.name, mistake.caught_by, readings, options);
    }
    MISNUMBER.set(None);
    !failed
}

/// Runs a group in which no mistake is made.
fn passes(group: &Group, options: &Options) -> bool {
    let (tally, difference) = ran(group, options);
    let too_rare = tally.too_rare();
    println!("no mistake: {}: {tally}", group.name);
    if let Some(Difference(said)) = &difference {
        print!("{said}");
    }
    for outcome in &too_rare {
        println!("  too rare: {outcome}");
    }
    difference.is_none() && too_rare.is_empty()
}

fn named<'a>(name: &str, groups: &[&'a Group]) -> &'a Group {
    let group = groups.iter().copied().find(|group| group.name == name);
    group.expect("a group of this name")
}

/// Runs the groups of these names against the mistake that is now made.
fn is_caught(mistake: &str, names: &[&str], groups: &[&Group], options: &Options) -> bool {
    let mut is_caught = true;
    for name in names {
        let (tally, difference) = ran(named(name, groups), options);
        let said = match difference {
            Some(_) => "caught",
            None => "NOT CAUGHT",
        };
        is_caught &= difference.is_some();
        let cases = tally.cases();
        println!("{mistake}: {said} after {cases} cases: {name}");
    }
    is_caught
}

fn ran(group: &Group, options: &Options) -> (Tally, Option<Difference>) {
    let mut tally = Tally::new(group);
    let mut random = Random::new(options.seed);
    MADE_ONE.set(false);
    let difference = (group.run)(&mut tally, &mut random, options.length).err();
    (tally, difference)
}

impl Played {
    fn accepted(written: Vec<u8>, length: usize) -> Self {
        Self {
            reply: Reply::accepted(&[length as u64]),
            written,
        }
    }

    fn after(after: &Result<Contents, Refusal>) -> Self {
        let carrier = after.as_ref().map(|contents| contents.written().0);
        Self {
            reply: plain::reply(after),
            written: carrier.unwrap_or_default(),
        }
    }
}

fn refused(number: u32, figure: u64) -> Played {
    Played {
        reply: Refusal::new(number, [figure, 0]).reply(),
        written: Vec::new(),
    }
}

fn reading(edit: &Edit) -> Reading {
    facts::reading(edit.source)
}

/// The plain contents' answer and carrier.
#[must_use]
pub fn faithful(edit: &Edit) -> Played {
    Played::after(&edit.after(&reading(edit)))
}

/// The edit's contents with something else done to them.
fn changed(edit: &Edit, change: impl FnOnce(&mut Contents)) -> Played {
    let mut after = edit.after(&reading(edit));
    if let Ok(contents) = &mut after {
        change(contents);
    }
    Played::after(&after)
}

/// An edit that clears protections, with something else done to them that the source's may be needed for.
fn leaves(edit: &Edit, leave: impl FnOnce(&mut Contents, &Contents)) -> Played {
    match reading(edit) {
        Ok(found) if edit.step.clears() => {
            changed(edit, |contents| leave(contents, &found.contents))
        }
        _ => faithful(edit),
    }
}

/// This call alone clears nothing.
fn leaves_with(edit: &Edit, call: &str) -> Played {
    if edit.step.name() == call {
        clears_nothing(edit)
    } else {
        faithful(edit)
    }
}

/// The plain contents' answer, and their carrier with the source's protections.
#[must_use]
pub fn clears_nothing(edit: &Edit) -> Played {
    leaves(edit, put_protections)
}

fn put_protections(contents: &mut Contents, source: &Contents) {
    contents.primary.clone_from(&source.primary);
    contents.secondary.clone_from(&source.secondary);
}

fn keep_last(protection: &mut [u8], source: &[u8]) {
    let last = protection.len() - 1;
    protection[last] = source[last];
}

/// Another step in this one's place, told how many payloads there are.
fn instead(edit: &Edit, other: fn(&Step, usize) -> Step) -> Played {
    let count = reading(edit).map_or(0, |found| found.contents.payloads.len());
    let step = &other(edit.step, count);
    faithful(&Edit { step, ..*edit })
}

fn place_of(edit: &Edit) -> Option<(usize, usize)> {
    let count = reading(edit).ok()?.contents.payloads.len();
    edit.step.place(count)
}

fn copies_the_source(edit: &Edit) -> Played {
    let played = faithful(edit);
    if played.reply.number != ACCEPTED || !edit.step.has_source() {
        return played;
    }
    let kept = edit.source.len().min(edit.destination);
    Played::accepted(edit.source[..kept].to_vec(), edit.source.len())
}

/// The right answer each time, but only once the right carrier.
fn makes_one(edit: &Edit) -> Played {
    let mut played = faithful(edit);
    if played.reply.number == ACCEPTED && MADE_ONE.replace(true) {
        let length = played.written.len();
        played.written = edit.source.to_vec();
        played.written.resize(length, 0);
    }
    played
}

/// As if each edit needed what the source has and all that it is handed.
fn does_not_measure(edit: &Edit) -> Played {
    let handed: usize = edit.step.slices().iter().map(|slice| slice.len()).sum();
    let enough = edit.source.len() + handed;
    match faithful(edit) {
        played if played.reply.number == ACCEPTED && edit.destination < enough => {
            refused(DESTINATION_TOO_SHORT, enough as u64)
        }
        played => played,
    }
}

fn at_the_neighbour(step: &Step, count: usize) -> Step {
    match step {
        Step::Settings { place, settings } if place ^ 1 < count => Step::Settings {
            place: place ^ 1,
            settings: settings.clone(),
        },
        step => step.clone(),
    }
}

fn after_the_place(step: &Step, count: usize) -> Step {
    let mut step = step.clone();
    if let Step::Insert { place, .. } = &mut step {
        if *place < count {
            *place += 1;
        }
    }
    step
}

fn with_any_presence(step: &Step, _: usize) -> Step {
    with_settings(step, |form| {
        for place in differential::steps::PRESENCES {
            let presence = &mut form[8 * place..8 * (place + 1)];
            if presence.iter().any(|byte| *byte != 0) {
                presence.copy_from_slice(&1_u64.to_be_bytes());
            }
        }
    })
}

/// The longest duration for the first that is too long.
fn with_a_long_duration(step: &Step, _: usize) -> Step {
    with_settings(step, |form| {
        let duration = &mut form[24..32];
        if *duration == (MOST_DURATION + 1).to_be_bytes() {
            duration.copy_from_slice(&MOST_DURATION.to_be_bytes());
        }
    })
}

fn with_settings(step: &Step, change: impl FnOnce(&mut [u8])) -> Step {
    let mut step = step.clone();
    if let Step::Settings { settings, .. } | Step::Insert { settings, .. } = &mut step {
        if settings.len() == plain::FORM {
            change(settings);
        }
    }
    step
}
