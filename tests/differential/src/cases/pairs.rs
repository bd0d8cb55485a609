//! Contents with payloads of ids 11 and 14, at and around what the profile wants.

use crate::contents::{Contents, Payload, Settings};
use crate::profile::{
    ALIGNED, CODEC, CREATE, DISCARD, DURATION, GROUP_ID, GROUP_IDS_DIFFER, JOC, OAMD, PRIORITY,
    PROCESSING, REMOVE, SAMPLE_OFFSET, SETTINGS_MARKS, WANTED,
};
use crate::random::Random;
use crate::shapes::{self, Numbers, MOST_GROUP_ID, MOST_OFFSET, SHAPES};

/// Beside 11 and 14, and such as a lost escape base or a narrower number would take for them.
const OTHER_IDS: [u64; 18] = [
    1,
    10,
    12,
    13,
    15,
    30,
    31,
    31 + OAMD,
    31 + JOC,
    32 + OAMD,
    32 + JOC,
    256 + OAMD,
    256 + JOC,
    65_536 + OAMD,
    (1 << 32) + OAMD,
    (1 << 32) + JOC,
    (1 << 63) + JOC,
    u64::MAX,
];

/// The settings of the payload with id 11, and of the one with id 14.
pub type Pair = [Settings; 2];

/// One thing of a payload that is not as wanted, and its marks with those that it brings along.
#[derive(Clone, Copy)]
pub struct Off {
    marks: u32,
    change: fn(&mut Settings, &Numbers),
}

/// All that can be off in one payload but the group id, which is off in two.
const OFF: [Off; 9] = [
    Off {
        marks: CODEC,
        change: |settings, _| settings.codec = false,
    },
    Off {
        marks: ALIGNED | CREATE | REMOVE | PRIORITY | PROCESSING,
        change: |settings, _| settings.aligned = Some(false),
    },
    Off {
        marks: SAMPLE_OFFSET | ALIGNED | CREATE | REMOVE,
        change: |settings, numbers| settings.sample_offset = Some(numbers.sample_offset),
    },
    Off {
        marks: DURATION,
        change: |settings, numbers| settings.duration = Some(numbers.duration),
    },
    Off {
        marks: DISCARD | ALIGNED | CREATE | REMOVE | PRIORITY | PROCESSING,
        change: |settings, _| settings.discard = true,
    },
    Off {
        marks: CREATE,
        change: |settings, _| settings.create = Some(true),
    },
    Off {
        marks: REMOVE,
        change: |settings, _| settings.remove = Some(true),
    },
    Off {
        marks: PRIORITY,
        change: |settings, numbers| settings.priority = Some(numbers.priority.max(1)),
    },
    Off {
        marks: PROCESSING,
        change: |settings, numbers| settings.processing = Some(numbers.processing.max(1)),
    },
];

/// How the two group ids stand to each other.
#[derive(Clone, Copy, Debug, Eq, PartialEq)]
pub enum GroupIds {
    Equal,
    Unequal,
    OamdAbsent,
    JocAbsent,
    BothAbsent,
}

pub const ALL_GROUP_IDS: [GroupIds; 5] = [
    GroupIds::Equal,
    GroupIds::Unequal,
    GroupIds::OamdAbsent,
    GroupIds::JocAbsent,
    GroupIds::BothAbsent,
];

impl GroupIds {
    /// Two absent ids are two marks and not three; an absent one beside a present one is two.
    #[must_use]
    pub fn marks(self) -> u32 {
        match self {
            Self::Equal => 0,
            Self::Unequal => GROUP_IDS_DIFFER,
            Self::OamdAbsent => GROUP_ID | GROUP_IDS_DIFFER,
            Self::JocAbsent => GROUP_ID << SETTINGS_MARKS | GROUP_IDS_DIFFER,
            Self::BothAbsent => GROUP_ID | GROUP_ID << SETTINGS_MARKS,
        }
    }

    /// Those of id 11 and id 14.
    pub fn draw(self, random: &mut Random) -> [Option<u64>; 2] {
        let first = Numbers::draw(random).group_id;
        let drawn = Numbers::draw(random).group_id;
        let far = first ^ 1 << 32;
        let second = match random.up_to(3) {
            0 if first != 0 => 0,
            1 if drawn != first => drawn,
            2 if far <= MOST_GROUP_ID => far,
            // The most is odd, so its neighbour is smaller.
            _ => first ^ 1,
        };
        match self {
            Self::Equal => [Some(first); 2],
            Self::Unequal => [Some(first), Some(second)],
            Self::OamdAbsent => [None, Some(first)],
            Self::JocAbsent => [Some(first), None],
            Self::BothAbsent => [None; 2],
        }
    }
}

/// What is off in a pair of payloads that are else as wanted.
#[derive(Clone)]
pub struct Near {
    off: [Vec<Off>; 2],
    group_ids: GroupIds,
}

impl Near {
    /// Nothing off.
    pub const MET: Self = Self {
        off: [const { Vec::new() }; 2],
        group_ids: GroupIds::Equal,
    };

    /// Each single thing off, and those pairs of group ids that are.
    #[must_use]
    pub fn alone() -> Vec<Self> {
        let off = (0..2).flat_map(|which| OFF.map(|off| Self::MET.with(which, off)));
        let group_ids = ALL_GROUP_IDS.into_iter().filter(|ids| ids.marks() != 0);
        off.chain(group_ids.map(|group_ids| Self {
            group_ids,
            ..Self::MET
        }))
        .collect()
    }

    /// Nothing, and all that compat lets pass: codec 0 on either, aligned 0 on id 11, all together.
    #[must_use]
    pub fn allowed() -> Vec<Self> {
        let [codec, aligned, ..] = OFF;
        let mut all = vec![Self::MET];
        for (which, off) in [(0, codec), (0, aligned), (1, codec)] {
            let more: Vec<_> = all.iter().map(|near| near.with(which, off)).collect();
            all.extend(more);
        }
        all
    }

    /// Any number of things off.
    pub fn draw(random: &mut Random) -> Self {
        let times = random.pick(&[2, 4, 10]);
        let off = [(); 2].map(|()| OFF.into_iter().filter(|_| random.one_in(times)).collect());
        let group_ids = if random.one_in(2) {
            GroupIds::Equal
        } else {
            random.pick(&ALL_GROUP_IDS)
        };
        Self { off, group_ids }
    }

    /// What is off in both, with one choice of group ids.
    #[must_use]
    pub fn and(&self, other: &Self) -> Self {
        let [oamd, joc] = [0, 1].map(|which| [&self.off[which][..], &other.off[which]].concat());
        let group_ids = match self.group_ids {
            GroupIds::Equal => other.group_ids,
            group_ids => group_ids,
        };
        Self {
            off: [oamd, joc],
            group_ids,
        }
    }

    /// The marks, where no two things off have the same one.
    #[must_use]
    pub fn marks(&self) -> u32 {
        let [oamd, joc] = [0, 1].map(|which| {
            let marks = self.off[which].iter().map(|off| off.marks);
            marks.fold(0, |word, marks| word | marks)
        });
        oamd | joc << SETTINGS_MARKS | self.group_ids.marks()
    }

    /// Settings with just this off, and any values where the profile asks for none.
    #[must_use]
    pub fn pair(&self, random: &mut Random) -> Pair {
        let group_ids = self.group_ids.draw(random);
        [0, 1].map(|which| {
            let mut settings = WANTED;
            settings.group_id = group_ids[which];
            for off in &self.off[which] {
                (off.change)(&mut settings, &Numbers::draw(random));
            }
            fitted(&settings)
        })
    }

    fn with(&self, which: usize, off: Off) -> Self {
        let mut near = self.clone();
        near.off[which].push(off);
        near
    }
}

/// Settings that are all there, but for those that the settings rule leaves out.
fn fitted(all: &Settings) -> Settings {
    let has_aligned = !all.discard && all.sample_offset.is_none();
    let aligned = all.aligned.filter(|_| has_aligned);
    let is_aligned = aligned == Some(true);
    let has_numbers = is_aligned || !all.discard && all.sample_offset.is_some();
    Settings {
        aligned,
        create: all.create.filter(|_| is_aligned),
        remove: all.remove.filter(|_| is_aligned),
        priority: all.priority.filter(|_| has_numbers),
        processing: all.processing.filter(|_| has_numbers),
        ..*all
    }
}

/// All settings of edge values that the settings rule lets be written, without a group id.
#[must_use]
pub fn every_settings() -> Vec<Settings> {
    let mut all = Vec::new();
    for sample_offset in [0, MOST_OFFSET] {
        for priority in [0, 1, 31] {
            for processing in 0..=3 {
                let numbers = Numbers {
                    sample_offset,
                    duration: 0,
                    group_id: 0,
                    priority,
                    processing,
                };
                let shapes = (0..SHAPES).map(|shape| shapes::settings(shape, &numbers));
                all.extend(shapes.filter(|settings| settings.group_id.is_none()));
            }
        }
    }
    let mut once: Vec<Settings> = Vec::new();
    for settings in all {
        if !once.contains(&settings) {
            once.push(settings);
        }
    }
    once
}

/// The two payloads in an order, with others before, between and after them, or none there.
pub fn contents(pair: &Pair, joc_first: bool, random: &mut Random) -> Contents {
    let [oamd, joc] = [(OAMD, pair[0]), (JOC, pair[1])];
    let pair = if joc_first { [joc, oamd] } else { [oamd, joc] };
    let mut contents = shapes::draw_contents(random, 0, 0);
    for (id, settings) in pair {
        others(&mut contents, random);
        contents.payloads.push(with(id, settings, random));
    }
    others(&mut contents, random);
    contents
}

/// So many payloads of id 11, of id 14 and of others, in any order; half of the time as wanted.
pub fn counted(counts: [usize; 3], random: &mut Random) -> Contents {
    let mut contents = shapes::draw_contents(random, 0, 0);
    let [oamd, joc, other] = counts;
    let wanted = random.one_in(2);
    for (id, count) in [(OAMD, oamd), (JOC, joc)] {
        for _ in 0..count {
            let settings = if wanted { WANTED } else { any_settings(random) };
            contents.payloads.push(with(id, settings, random));
        }
    }
    contents
        .payloads
        .extend((0..other).map(|_| draw_other(random)));
    for last in (1..contents.payloads.len()).rev() {
        contents.payloads.swap(last, random.up_to(last));
    }
    contents
}

/// A payload that is neither of the two, with settings as wanted, or near, or any.
pub fn draw_other(random: &mut Random) -> Payload {
    let id = random.pick(&OTHER_IDS);
    let settings = any_settings(random);
    with(id, settings, random)
}

fn any_settings(random: &mut Random) -> Settings {
    match random.up_to(2) {
        0 => WANTED,
        1 => Near::draw(random).pair(random)[0],
        _ => shapes::draw_settings(random),
    }
}

/// One payload or two, one time in three.
fn others(contents: &mut Contents, random: &mut Random) {
    if random.one_in(3) {
        for _ in 0..=random.up_to(1) {
            contents.payloads.push(draw_other(random));
        }
    }
}

fn with(id: u64, settings: Settings, random: &mut Random) -> Payload {
    let size = random.up_to(4);
    Payload {
        id,
        settings,
        body: random.bytes(size),
    }
}
