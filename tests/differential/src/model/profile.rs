//! The profile of the scope, from contents alone: wanted settings, marks and verdicts.

use crate::carrier::{Reading, Reply, NOT_ONE_OF_EACH, PROFILE_NOT_MET};
use crate::contents::{Contents, Settings};
use crate::groups;

pub const OAMD: u64 = 11;
pub const JOC: u64 = 14;

/// The profile number that is strict; each other one is compat.
pub const STRICT: u32 = 0;

/// Those that both profiles accept, with any group id that the other payload has too.
pub const WANTED: Settings = Settings {
    sample_offset: None,
    duration: None,
    group_id: Some(0),
    codec: true,
    discard: false,
    aligned: Some(true),
    create: Some(false),
    remove: Some(false),
    priority: Some(0),
    processing: Some(0),
};

/// The marks of id 11 in the order of the settings; those of id 14 stand ten higher.
pub const SAMPLE_OFFSET: u32 = 1 << 0;
pub const DURATION: u32 = 1 << 1;
pub const GROUP_ID: u32 = 1 << 2;
pub const CODEC: u32 = 1 << 3;
pub const DISCARD: u32 = 1 << 4;
pub const ALIGNED: u32 = 1 << 5;
pub const CREATE: u32 = 1 << 6;
pub const REMOVE: u32 = 1 << 7;
pub const PRIORITY: u32 = 1 << 8;
pub const PROCESSING: u32 = 1 << 9;
pub const GROUP_IDS_DIFFER: u32 = 1 << 20;

/// The marks of each of the two payloads.
pub const SETTINGS_MARKS: u32 = 10;

/// All marks.
pub const MARKS: u32 = 21;

/// The scope's verdict on what a reading found, or was refused with.
#[must_use]
pub fn verdict(reading: &Reading, profile: u32) -> Reply {
    match reading {
        Ok(found) => verdict_on(&found.contents, profile),
        Err(refusal) => refusal.reply(),
    }
}

fn verdict_on(contents: &Contents, profile: u32) -> Reply {
    let [oamd, joc] = [OAMD, JOC].map(|id| places(contents, id));
    let ([oamd], [joc]) = (&oamd[..], &joc[..]) else {
        let counts = [oamd.len() as u64, joc.len() as u64];
        return Reply::new(NOT_ONE_OF_EACH, &counts);
    };
    let [first, second] = [oamd, joc].map(|&place| &contents.payloads[place].settings);
    let marks = marks(first, second);
    let accepted = marks == 0 || profile != STRICT && compat_accepts(first, second);
    if !accepted {
        let figures = [marks, marks.count_ones()].map(u64::from);
        return Reply::new(PROFILE_NOT_MET, &figures);
    }
    let any = u64::from(marks != 0);
    let [oamd, joc] = [*oamd, *joc].map(|place| place as u64);
    let groups = groups::largest(contents);
    Reply::accepted(&[oamd, joc, u64::from(marks), any, groups])
}

fn places(contents: &Contents, id: u64) -> Vec<usize> {
    let payloads = contents.payloads.iter().enumerate();
    payloads
        .filter(|(_, payload)| payload.id == id)
        .map(|(place, _)| place)
        .collect()
}

fn marks(oamd: &Settings, joc: &Settings) -> u32 {
    let differ = oamd.group_id != joc.group_id;
    unwanted(oamd) | unwanted(joc) << SETTINGS_MARKS | u32::from(differ) * GROUP_IDS_DIFFER
}

fn unwanted(settings: &Settings) -> u32 {
    let all = [
        (settings.sample_offset.is_some(), SAMPLE_OFFSET),
        (settings.duration.is_some(), DURATION),
        (settings.group_id.is_none(), GROUP_ID),
        (!settings.codec, CODEC),
        (settings.discard, DISCARD),
        (settings.aligned != Some(true), ALIGNED),
        (settings.create != Some(false), CREATE),
        (settings.remove != Some(false), REMOVE),
        (settings.priority != Some(0), PRIORITY),
        (settings.processing != Some(0), PROCESSING),
    ];
    let set = all.into_iter().filter(|(is_set, _)| *is_set);
    set.fold(0, |word, (_, mark)| word | mark)
}

/// What compat lets pass is put right first; nothing else may then be left.
fn compat_accepts(oamd: &Settings, joc: &Settings) -> bool {
    let oamd = Settings {
        codec: true,
        aligned: oamd.aligned.map(|_| true),
        create: oamd.create.or(Some(false)),
        remove: oamd.remove.or(Some(false)),
        priority: oamd.priority.or(Some(0)),
        processing: oamd.processing.or(Some(0)),
        ..*oamd
    };
    let joc = Settings {
        codec: true,
        ..*joc
    };
    marks(&oamd, &joc) == 0
}
