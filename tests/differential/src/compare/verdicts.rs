//! The groups for verdicts.

use crate::carriers;
use crate::examine::Examiner;
use crate::reached::{
    RAREST_ALLOWED, RAREST_ALONE, RAREST_COUNTS, RAREST_GAPS, RAREST_MARK, RAREST_NOT_ALLOWED,
    STRICT_ACCEPTED,
};
use crate::report::{Difference, Group, Tally};
use differential::carrier::{
    HEADER_CUT, MOST_DECLARED, NOT_ONE_OF_EACH, NO_PRIMARY, NO_SYNC_WORD, PADDING_NOT_ZERO,
    PADDING_TOO_LONG, PROFILE_NOT_MET, RESERVED_NOT_ZERO, TRUNCATED, VERSION_NOT_ZERO,
};
use differential::case::{ACCEPTED, TOO_FEW_BITS, TOO_MANY_GROUPS, VALUE_TOO_LARGE};
use differential::contents::Contents;
use differential::damage;
use differential::options::Length;
use differential::pairs::{self, Near, Pair, ALL_GROUP_IDS};
use differential::profile::{JOC, OAMD};
use differential::random::Random;
use differential::shapes;
use differential::wrong;

pub const GROUPS: [Group; 4] = [
    Group {
        name: "verdicts on every pair of settings",
        // Of all these pairs strict accepts one, and compat eight.
        least: 9,
        outcomes: &[("verdict", ACCEPTED), ("verdict", PROFILE_NOT_MET)],
        marks: &[RAREST_MARK],
        run: every_pair,
    },
    Group {
        name: "verdicts near the profile",
        least: 100,
        outcomes: &[
            ("verdict", ACCEPTED),
            ("verdict", PROFILE_NOT_MET),
            ("validate_joc_profile", ACCEPTED),
            ("validate_joc_profile", PROFILE_NOT_MET),
        ],
        marks: &[
            RAREST_MARK,
            STRICT_ACCEPTED,
            RAREST_ALONE,
            RAREST_ALLOWED,
            RAREST_NOT_ALLOWED,
            RAREST_GAPS,
        ],
        run: near_the_profile,
    },
    Group {
        name: "verdicts on any number of payloads",
        least: 100,
        outcomes: &[
            ("verdict", ACCEPTED),
            ("verdict", NOT_ONE_OF_EACH),
            ("verdict", PROFILE_NOT_MET),
            ("validate_joc_profile", NOT_ONE_OF_EACH),
            ("validate_joc_profile", PROFILE_NOT_MET),
        ],
        marks: &[RAREST_COUNTS],
        run: any_number,
    },
    Group {
        name: "verdicts on damaged carriers",
        least: 100,
        outcomes: &[
            ("verdict", ACCEPTED),
            ("verdict", HEADER_CUT),
            ("verdict", TRUNCATED),
            ("verdict", NO_SYNC_WORD),
            ("verdict", TOO_FEW_BITS),
            ("verdict", TOO_MANY_GROUPS),
            ("verdict", VALUE_TOO_LARGE),
            ("verdict", VERSION_NOT_ZERO),
            ("verdict", RESERVED_NOT_ZERO),
            ("verdict", NO_PRIMARY),
            ("verdict", PADDING_TOO_LONG),
            ("verdict", PADDING_NOT_ZERO),
            ("verdict", NOT_ONE_OF_EACH),
            ("verdict", PROFILE_NOT_MET),
            ("validate_joc_profile", TRUNCATED),
            ("validate_joc_profile", NO_SYNC_WORD),
            ("validate_joc_profile", TOO_FEW_BITS),
            ("validate_joc_profile", TOO_MANY_GROUPS),
            ("validate_joc_profile", VALUE_TOO_LARGE),
            ("validate_joc_profile", VERSION_NOT_ZERO),
            ("validate_joc_profile", RESERVED_NOT_ZERO),
            ("validate_joc_profile", NO_PRIMARY),
            ("validate_joc_profile", PADDING_TOO_LONG),
            ("validate_joc_profile", PADDING_NOT_ZERO),
            ("validate_joc_profile", NOT_ONE_OF_EACH),
            ("validate_joc_profile", PROFILE_NOT_MET),
        ],
        marks: &[RAREST_MARK],
        run: damaged_carriers,
    },
];

/// Bytes after a carrier one time in four; they change nothing in a verdict.
fn lengthen(carrier: &mut Vec<u8>, random: &mut Random) {
    if random.one_in(4) {
        let more = 1 + random.up_to(20);
        carrier.extend(random.bytes(more));
    }
}

fn verdicts(
    contents: &Contents,
    examiner: &mut Examiner,
    tally: &mut Tally,
    random: &mut Random,
) -> Result<(), Difference> {
    let (mut carrier, found) = contents.written();
    lengthen(&mut carrier, random);
    examiner.check_verdicts_with_rule(&carrier, &Ok(found), tally)
}

/// Both orders of a pair, each with its own payloads around it.
fn both_orders(
    pair: &Pair,
    examiner: &mut Examiner,
    tally: &mut Tally,
    random: &mut Random,
) -> Result<(), Difference> {
    for joc_first in [false, true] {
        let contents = pairs::contents(pair, joc_first, random);
        verdicts(&contents, examiner, tally, random)?;
    }
    Ok(())
}

fn every_pair(tally: &mut Tally, random: &mut Random, length: Length) -> Result<(), Difference> {
    let mut examiner = Examiner::new();
    let all = pairs::every_settings();
    let mut joc_first = false;
    for _ in 0..length.rounds(1, 16) {
        for oamd in &all {
            for joc in &all {
                for group_ids in ALL_GROUP_IDS {
                    let mut pair = [*oamd, *joc];
                    [pair[0].group_id, pair[1].group_id] = group_ids.draw(random);
                    joc_first = !joc_first;
                    let contents = pairs::contents(&pair, joc_first, random);
                    verdicts(&contents, &mut examiner, tally, random)?;
                }
            }
        }
        // They are even in number, so that the next round has the other order of each.
        joc_first = !joc_first;
    }
    examiner.reached.mark_marks(tally);
    Ok(())
}

fn near_the_profile(
    tally: &mut Tally,
    random: &mut Random,
    length: Length,
) -> Result<(), Difference> {
    let mut examiner = Examiner::new();
    let allowed = Near::allowed();
    let mut off = Near::alone();
    off.push(Near::MET);
    for _ in 0..length.rounds(200, 3_000) {
        for off in &off {
            for allowed in &allowed {
                let pair = off.and(allowed).pair(random);
                both_orders(&pair, &mut examiner, tally, random)?;
            }
        }
        for _ in 0..200 {
            let pair = Near::draw(random).pair(random);
            both_orders(&pair, &mut examiner, tally, random)?;
        }
    }
    for _ in 0..length.rounds(5, 50) {
        for near in &allowed {
            for joc_first in [false, true] {
                let mut contents = pairs::contents(&near.pair(random), joc_first, random);
                shapes::fill(&mut contents, MOST_DECLARED);
                verdicts(&contents, &mut examiner, tally, random)?;
            }
        }
    }
    examiner.reached.mark_marks(tally);
    examiner.reached.mark_deviations(tally);
    examiner.reached.mark_gaps(tally);
    Ok(())
}

fn any_number(tally: &mut Tally, random: &mut Random, length: Length) -> Result<(), Difference> {
    let mut examiner = Examiner::new();
    for _ in 0..length.rounds(400, 4_000) {
        let many = random.pick(&[4, 5, 20, 255, 256, 300]);
        for oamd in [0, 1, 2, 3, many] {
            for joc in [0, 1, 2, 3, many] {
                let others = random.pick(&[0, 1, 2, 8, 40]);
                let contents = pairs::counted([oamd, joc, others], random);
                verdicts(&contents, &mut examiner, tally, random)?;
            }
        }
    }
    for _ in 0..length.rounds(2, 20) {
        for ids in [&[OAMD][..], &[JOC], &[OAMD, JOC], &[OAMD, JOC, 10, 15]] {
            let mut contents = carriers::most_payloads(random);
            for payload in &mut contents.payloads {
                payload.id = random.pick(ids);
            }
            verdicts(&contents, &mut examiner, tally, random)?;
        }
        let mut contents = carriers::most_payloads(random);
        for payload in &mut contents.payloads {
            payload.id = 1;
        }
        // One of each at the far ends of as many payloads as there can be.
        let last = contents.payloads.len() - 1;
        contents.payloads[0].id = JOC;
        contents.payloads[last].id = OAMD;
        verdicts(&contents, &mut examiner, tally, random)?;
    }
    examiner.reached.mark_counts(tally);
    Ok(())
}

fn damaged_carriers(
    tally: &mut Tally,
    random: &mut Random,
    length: Length,
) -> Result<(), Difference> {
    let mut examiner = Examiner::new();
    for _ in 0..length.rounds(400, 6_000) {
        let near = Near::draw(random);
        let contents = pairs::contents(&near.pair(random), random.one_in(2), random);
        let wrong = wrong::carriers(&contents, random).into_iter();
        for mut wrong in wrong.chain(wrong::sums_with_base(&contents, random)) {
            // More bytes would be those that are missing here.
            if ![HEADER_CUT, TRUNCATED].contains(&wrong.refusal.number) {
                lengthen(&mut wrong.carrier, random);
            }
            examiner.check_verdicts_with_rule(&wrong.carrier, &Err(wrong.refusal), tally)?;
        }
        let carrier = contents.written().0;
        for damaged in damage::small(&carrier, random) {
            examiner.check_verdicts(&damaged, tally)?;
        }
        for _ in 0..50 {
            let changes = 2 + random.up_to(3);
            examiner.check_verdicts(&damage::flipped(&carrier, changes, random), tally)?;
            examiner.check_verdicts(&damage::changed_bytes(&carrier, random), tally)?;
            let most_bits = random.pick(&[60, 200, 500]);
            examiner.check_verdicts(&damage::random_container(random, most_bits), tally)?;
        }
    }
    examiner.reached.mark_marks(tally);
    Ok(())
}
