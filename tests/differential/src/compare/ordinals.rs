//! The groups for ordinals in a table's rows, for finding payloads by them, and for what edits do to them.

use crate::editing::{Editor, Source};
use crate::examine::{self, Examiner};
use crate::lent::Lent;
use crate::report::{Difference, Group, Tally};
use differential::carrier::{
    Ask, Asked, HEADER_CUT, NO_PRIMARY, NO_SUCH_ORDINAL, NO_SYNC_WORD, ORIGINAL_ROW_WORDS,
    PADDING_NOT_ZERO, PADDING_TOO_LONG, RESERVED_NOT_ZERO, ROW, ROW_WORDS, TABLE_TOO_SHORT,
    TRUNCATED, VERSION_NOT_ZERO,
};
use differential::case::{ACCEPTED, TOO_FEW_BITS, TOO_MANY_GROUPS, VALUE_TOO_LARGE};
use differential::contents::Contents;
use differential::damage;
use differential::facts::Facts;
use differential::finds::{self, Named, FIRST_ESCAPED};
use differential::options::Length;
use differential::plain::Step;
use differential::random::Random;
use differential::steps::{self, KINDS};
use differential::wrong;

pub const GROUPS: [Group; 3] = [
    Group {
        name: "every id and ordinal of a carrier",
        least: 100,
        outcomes: &[
            ("read", ACCEPTED),
            ("read", TABLE_TOO_SHORT),
            ("find_payload", ACCEPTED),
            ("find_payload", NO_SUCH_ORDINAL),
        ],
        marks: &[LATER_ORDINAL, ESCAPED_ID, FOLLOWED],
        run: every_name,
    },
    Group {
        name: "ids and ordinals of damaged carriers",
        least: 100,
        outcomes: &[
            ("find_payload", ACCEPTED),
            ("find_payload", NO_SUCH_ORDINAL),
            ("find_payload", HEADER_CUT),
            ("find_payload", TRUNCATED),
            ("find_payload", NO_SYNC_WORD),
            ("find_payload", TOO_FEW_BITS),
            ("find_payload", TOO_MANY_GROUPS),
            ("find_payload", VALUE_TOO_LARGE),
            ("find_payload", VERSION_NOT_ZERO),
            ("find_payload", RESERVED_NOT_ZERO),
            ("find_payload", NO_PRIMARY),
            ("find_payload", PADDING_TOO_LONG),
            ("find_payload", PADDING_NOT_ZERO),
        ],
        marks: &[],
        run: damaged_carriers,
    },
    Group {
        name: "ordinals after each edit",
        least: 100,
        outcomes: &[
            ("edit_body", ACCEPTED),
            ("edit_settings", ACCEPTED),
            ("edit_drop", ACCEPTED),
            ("edit_insert", ACCEPTED),
            ("edit_key", ACCEPTED),
            ("edit_protection", ACCEPTED),
        ],
        marks: &[FELL, ROSE],
        run: after_edits,
    },
];

/// How often a payload was found that is not the first of its id, one whose id has the escape, and one in a carrier with bytes
/// after it.
const LATER_ORDINAL: &str = "later-ordinal";
const ESCAPED_ID: &str = "escaped-id";
const FOLLOWED: &str = "bytes-after";

/// How often a drop or an insert moved the ordinal of a payload that stayed.
const FELL: &str = "fell";
const ROSE: &str = "rose";

/// Room for every carrier that the edits here leave.
const DESTINATION: usize = 4_000;

fn every_name(tally: &mut Tally, random: &mut Random, length: Length) -> Result<(), Difference> {
    let mut examiner = Examiner::new();
    for _ in 0..length.rounds(10, 200) {
        for _ in 0..200 {
            let payloads = random.up_to(12);
            let most_body = random.pick(&[0, 8, 40]);
            let contents = finds::repeating(random, payloads, most_body);
            names(&contents, &mut examiner, tally, random)?;
        }
    }
    for _ in 0..length.rounds(2, 20) {
        for contents in finds::many(random) {
            names(&contents, &mut examiner, tally, random)?;
        }
    }
    for contents in finds::longest() {
        names(&contents, &mut examiner, tally, random)?;
    }
    Ok(())
}

/// The carrier's table, and its names and others; bytes after half of the carriers.
fn names(
    contents: &Contents,
    examiner: &mut Examiner,
    tally: &mut Tally,
    random: &mut Random,
) -> Result<(), Difference> {
    let (mut carrier, found) = contents.written();
    let has_more = random.one_in(2);
    if has_more {
        let more = 1 + random.up_to(20);
        carrier.extend(random.bytes(more));
    }
    examiner.check_with_rule(&carrier, &Ok(found), tally)?;
    let held = finds::held(contents, random);
    for &(id, ordinal) in &held {
        let is = [
            (LATER_ORDINAL, ordinal > 1),
            (ESCAPED_ID, id >= FIRST_ESCAPED),
            (FOLLOWED, has_more),
        ];
        let marks = is.into_iter().filter(|(_, is_so)| *is_so);
        marks.for_each(|(mark, _)| tally.mark(mark));
    }
    let beside = finds::beside(&held, random);
    examiner.check_names(&carrier, &[held, beside].concat(), tally)
}

/// What the carrier had, and names that none has: what refuses the carrier comes first.
fn damaged_carriers(
    tally: &mut Tally,
    random: &mut Random,
    length: Length,
) -> Result<(), Difference> {
    let mut examiner = Examiner::new();
    for _ in 0..length.rounds(150, 3_000) {
        let payloads = 1 + random.up_to(3);
        let contents = finds::repeating(random, payloads, 8);
        let mut names = finds::held(&contents, random);
        names.extend([(names[0].0, 9), (0, 0), (1, 1)]);
        let wrong = wrong::carriers(&contents, random).into_iter();
        let damaged = damage::small(&contents.written().0, random);
        for carrier in wrong.map(|wrong| wrong.carrier).chain(damaged) {
            examiner.check_names(&carrier, &names, tally)?;
        }
    }
    Ok(())
}

/// Each edit, and the library's own tables before and after it.
fn after_edits(tally: &mut Tally, random: &mut Random, length: Length) -> Result<(), Difference> {
    let mut editor = Editor::new();
    let mut lent = Lent::new();
    for _ in 0..length.rounds(1_500, 30_000) {
        let payloads = 1 + random.up_to(9);
        let contents = finds::repeating(random, payloads, 8);
        let source = Source::new(contents.written().0);
        let before = names_read(&source.bytes, &mut lent);
        for kind in 0..KINDS {
            let step = drawn_step(kind, &contents, random);
            let (_, left) = editor.check_once(&source, &step, DESTINATION, tally)?;
            let Some(left) = left else { continue };
            let wanted = ruled(&before, &step, tally);
            let after = names_read(&left, &mut lent);
            if after != wanted {
                return Err(breaks_the_law(&left, &step, [&before, &wanted, &after]));
            }
        }
    }
    Ok(())
}

/// An edit of a kind at any place; an insert mostly of an id that is there.
fn drawn_step(kind: usize, contents: &Contents, random: &mut Random) -> Step {
    let last = contents.payloads.len() - 1;
    let place = random.up_to(last);
    let mut step = steps::draw(kind, place, 8, random);
    if let Step::Insert { place, id, .. } = &mut step {
        *place = random.up_to(last + 1);
        if !random.one_in(4) {
            *id = contents.payloads[random.up_to(last)].id;
        }
    }
    step
}

/// Ids and ordinals after an edit, from those before it and what the scope says of each edit.
fn ruled(before: &[Named], step: &Step, tally: &mut Tally) -> Vec<Named> {
    let mut after = before.to_vec();
    match *step {
        Step::Drop { place } => {
            let (dropped, _) = after.remove(place);
            for (_, ordinal) in of_id(dropped, &mut after[place..]) {
                *ordinal -= 1;
                tally.mark(FELL);
            }
        }
        Step::Insert { place, id, .. } => {
            for (_, ordinal) in of_id(id, &mut after[place..]) {
                *ordinal += 1;
                tally.mark(ROSE);
            }
            let before_it = of_id(id, &mut after[..place]).count() as u64;
            after.insert(place, (id, before_it + 1));
        }
        _ => {}
    }
    after
}

fn of_id(wanted: u64, named: &mut [Named]) -> impl Iterator<Item = &mut Named> {
    named.iter_mut().filter(move |(id, _)| *id == wanted)
}

/// The ids and ordinals in the table that the library fills.
fn names_read(carrier: &[u8], lent: &mut Lent) -> Vec<Named> {
    let facts = Facts::new(carrier);
    let table = ROW * facts.count();
    examine::replied(carrier, Ask::Read { table }, &facts, lent);
    let (numbers, _) = lent.lent().as_chunks();
    let rows = numbers.chunks_exact(ROW_WORDS);
    let names = rows.map(|row| {
        let [id, ordinal] = [0, ORIGINAL_ROW_WORDS].map(|word| u64::from_be_bytes(row[word]));
        (id, ordinal)
    });
    let names = names.collect();
    lent.restore_all();
    names
}

#[cold]
fn breaks_the_law(carrier: &[u8], step: &Step, names: [&Vec<Named>; 3]) -> Difference {
    let ask = Ask::Read {
        table: ROW * names[1].len(),
    };
    let case = Asked {
        bytes: carrier,
        ask,
    };
    let [before, wanted, after] = names;
    let said = format!(
        "  edit      {step:?}\n  before    {before:?}\n  law       {wanted:?}\n  library   {after:?}\n"
    );
    Difference(format!("ordinals break the law of the edit:\n{case}{said}"))
}
