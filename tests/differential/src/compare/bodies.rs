//! The groups for moving a body.

use crate::carriers;
use crate::examine::{Examiner, IN_THE_CARRIER, IN_THE_SCRATCH, NO_BODY, RAREST_PHASE};
use crate::report::{Difference, Group, Tally};
use differential::carrier::{
    HEADER_CUT, NO_PRIMARY, NO_SUCH_PLACE, NO_SYNC_WORD, PADDING_NOT_ZERO, PADDING_TOO_LONG,
    RESERVED_NOT_ZERO, SCRATCH_TOO_SHORT, TRUNCATED, VERSION_NOT_ZERO,
};
use differential::case::{ACCEPTED, TOO_FEW_BITS, TOO_MANY_GROUPS, VALUE_TOO_LARGE};
use differential::contents::Contents;
use differential::damage;
use differential::options::Length;
use differential::random::Random;
use differential::shapes;
use differential::wrong;

pub const GROUPS: [Group; 2] = [
    Group {
        name: "every body of a carrier",
        least: 100,
        outcomes: &[
            ("move_body", ACCEPTED),
            ("move_body", NO_SUCH_PLACE),
            ("move_body", SCRATCH_TOO_SHORT),
            ("choose_body", ACCEPTED),
        ],
        marks: &[RAREST_PHASE, IN_THE_CARRIER, IN_THE_SCRATCH, NO_BODY],
        run: every_body,
    },
    Group {
        name: "bodies of damaged carriers",
        least: 100,
        outcomes: &[
            ("move_body", HEADER_CUT),
            ("move_body", TRUNCATED),
            ("move_body", NO_SYNC_WORD),
            ("move_body", TOO_FEW_BITS),
            ("move_body", TOO_MANY_GROUPS),
            ("move_body", VALUE_TOO_LARGE),
            ("move_body", VERSION_NOT_ZERO),
            ("move_body", RESERVED_NOT_ZERO),
            ("move_body", NO_PRIMARY),
            ("move_body", PADDING_TOO_LONG),
            ("move_body", PADDING_NOT_ZERO),
        ],
        marks: &[NO_BODY],
        run: damaged_carriers,
    },
];

/// The most places of one carrier that are tried.
const PLACES: usize = 40;

fn every_body(tally: &mut Tally, random: &mut Random, length: Length) -> Result<(), Difference> {
    let mut examiner = Examiner::new();
    for contents in carriers::edges(random) {
        bodies(&contents, &mut examiner, tally, random)?;
    }
    for _ in 0..length.rounds(30, 600) {
        for _ in 0..300 {
            let payloads = random.up_to(6);
            let most_body = random.pick(&[0, 8, 40, 300]);
            let contents = shapes::draw_contents(random, payloads, most_body);
            bodies(&contents, &mut examiner, tally, random)?;
        }
        for contents in carriers::long(random) {
            bodies(&contents, &mut examiner, tally, random)?;
        }
    }
    for _ in 0..length.rounds(1, 20) {
        for contents in carriers::longest(random) {
            bodies(&contents, &mut examiner, tally, random)?;
        }
    }
    examiner.mark_phases(tally);
    Ok(())
}

/// All places, or some of very many, and three past the last; bytes after half of the carriers.
fn bodies(
    contents: &Contents,
    examiner: &mut Examiner,
    tally: &mut Tally,
    random: &mut Random,
) -> Result<(), Difference> {
    let (mut carrier, _) = contents.written();
    if random.one_in(2) {
        let more = random.up_to(20);
        carrier.extend(random.bytes(more));
    }
    let count = contents.payloads.len();
    let mut places: Vec<usize> = if count <= PLACES {
        (0..count).collect()
    } else {
        let some = (0..PLACES).map(|_| random.up_to(count - 1));
        some.chain([count - 1]).collect()
    };
    places.extend([count, count + 1, usize::MAX]);
    examiner.check_bodies(&carrier, &places, tally)
}

/// The first two places and one that no carrier has: what refuses the carrier comes first.
fn damaged_carriers(
    tally: &mut Tally,
    random: &mut Random,
    length: Length,
) -> Result<(), Difference> {
    let mut examiner = Examiner::new();
    for _ in 0..length.rounds(300, 6_000) {
        let payloads = 1 + random.up_to(2);
        let contents = shapes::draw_contents(random, payloads, 8);
        let wrong = wrong::carriers(&contents, random).into_iter();
        let damaged = damage::small(&contents.written().0, random);
        for carrier in wrong.map(|wrong| wrong.carrier).chain(damaged) {
            examiner.check_bodies(&carrier, &[0, 1, usize::MAX], tally)?;
        }
    }
    Ok(())
}
