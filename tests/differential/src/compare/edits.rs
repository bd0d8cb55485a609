//! The groups for single edits and the blank call.

use crate::carriers;
use crate::editing::{Editor, Source, RAREST_CLEARED, RAREST_ENDS};
use crate::report::{Difference, Group, Outcome, Tally};
use differential::carrier::{
    Refusal, B, BYTES_AFTER, DESTINATION_TOO_SHORT, HEADER, HEADER_CUT, MOST_DECLARED,
    NOT_WRITABLE, NO_PRIMARY, NO_SUCH_PLACE, NO_SYNC_WORD, PADDING_NOT_ZERO, PADDING_TOO_LONG,
    RESERVED_NOT_ZERO, TOO_LONG, TRUNCATED, VERSION_NOT_ZERO,
};
use differential::case::{ACCEPTED, TOO_FEW_BITS, TOO_MANY_GROUPS, VALUE_TOO_LARGE};
use differential::contents::{Contents, Settings};
use differential::damage;
use differential::limits::{self, Limit};
use differential::noes::Noes;
use differential::options::Length;
use differential::plain::{self, Edit, Step, FORM};
use differential::random::Random;
use differential::scripts;
use differential::shapes::{self, Numbers, MOST_DURATION, SHAPES, SIZES};
use differential::steps::{self, KINDS};
use differential::wrong;

pub const GROUPS: [Group; 6] = [
    Group {
        name: "each edit on carriers of every shape",
        least: 100,
        outcomes: &[
            ("edit_body", ACCEPTED),
            ("edit_body", NO_SUCH_PLACE),
            ("edit_body", DESTINATION_TOO_SHORT),
            ("edit_settings", ACCEPTED),
            ("edit_settings", NO_SUCH_PLACE),
            ("edit_settings", DESTINATION_TOO_SHORT),
            ("edit_drop", ACCEPTED),
            ("edit_drop", NO_SUCH_PLACE),
            ("edit_drop", DESTINATION_TOO_SHORT),
            ("edit_insert", ACCEPTED),
            ("edit_insert", NO_SUCH_PLACE),
            ("edit_insert", DESTINATION_TOO_SHORT),
            ("edit_key", ACCEPTED),
            ("edit_key", DESTINATION_TOO_SHORT),
            ("edit_protection", ACCEPTED),
            ("edit_protection", DESTINATION_TOO_SHORT),
        ],
        marks: &[RAREST_ENDS, RAREST_CLEARED, AS_IT_IS],
        run: every_shape,
    },
    Group {
        name: "edits with every edge of their arguments",
        least: 10,
        outcomes: &[
            ("edit_body", ACCEPTED),
            ("edit_body", TOO_LONG),
            ("edit_body", DESTINATION_TOO_SHORT),
            ("edit_settings", ACCEPTED),
            ("edit_settings", NOT_WRITABLE),
            ("edit_settings", DESTINATION_TOO_SHORT),
            ("edit_insert", ACCEPTED),
            ("edit_insert", NOT_WRITABLE),
            ("edit_insert", TOO_LONG),
            ("edit_insert", DESTINATION_TOO_SHORT),
            ("edit_key", ACCEPTED),
            ("edit_key", DESTINATION_TOO_SHORT),
            ("edit_protection", ACCEPTED),
            ("edit_protection", NOT_WRITABLE),
            ("edit_protection", DESTINATION_TOO_SHORT),
        ],
        marks: &[NO_FORM, RAREST_PRESENCES],
        run: edge_arguments,
    },
    Group {
        name: "edits of damaged carriers",
        least: 100,
        outcomes: &EVERY_SOURCE_REFUSED,
        marks: &[],
        run: damaged_sources,
    },
    Group {
        name: "edits with several questions answered no",
        // As often as the carriers that are nearly full are drawn.
        least: 3,
        outcomes: &[
            ("edit_body", ACCEPTED),
            ("edit_settings", ACCEPTED),
            ("edit_drop", ACCEPTED),
            ("edit_insert", ACCEPTED),
            ("edit_key", ACCEPTED),
            ("edit_protection", ACCEPTED),
        ],
        marks: &[RAREST_NOES],
        run: several_noes,
    },
    Group {
        name: "edits at their limits",
        // Once a round for each of the sixteen ends and each edit.
        least: 2,
        outcomes: &[
            ("edit_body", ACCEPTED),
            ("edit_body", TOO_LONG),
            ("edit_settings", ACCEPTED),
            ("edit_settings", NOT_WRITABLE),
            ("edit_settings", TOO_LONG),
            ("edit_drop", ACCEPTED),
            ("edit_insert", ACCEPTED),
            ("edit_insert", NOT_WRITABLE),
            ("edit_insert", TOO_LONG),
            ("edit_key", ACCEPTED),
            ("edit_key", TOO_LONG),
            ("edit_protection", ACCEPTED),
            ("edit_protection", TOO_LONG),
        ],
        marks: &[RAREST_LIMIT],
        run: limits_of_edits,
    },
    Group {
        name: "blank carriers",
        least: 100,
        outcomes: &[
            ("blank", ACCEPTED),
            ("blank", NOT_WRITABLE),
            ("blank", DESTINATION_TOO_SHORT),
            ("edit_insert", ACCEPTED),
            ("edit_key", ACCEPTED),
            ("edit_protection", ACCEPTED),
        ],
        marks: &[],
        run: blank_carriers,
    },
];

/// Edits for what is there already.
const AS_IT_IS: &str = "as-it-is";

/// Settings whose bytes are not of the form.
const NO_FORM: &str = "no-form";

/// How often the rarest of the 256 presences of settings was asked for.
const RAREST_PRESENCES: &str = "each-presences";

/// How often the rarest set of questions was answered no that an edit can be asked.
const RAREST_NOES: &str = "each-noes";

/// How often the rarest edit led to the rarest of the last bits around the longest carrier.
const RAREST_LIMIT: &str = "each-limit";

const EDITS: [&str; KINDS] = [
    "edit_body",
    "edit_settings",
    "edit_drop",
    "edit_insert",
    "edit_key",
    "edit_protection",
];

/// A reading's widths and bounds are fixed, so there is no 4 and no 5.
const SOURCE_REFUSED: [u32; 12] = [
    HEADER_CUT,
    TRUNCATED,
    NO_SYNC_WORD,
    TOO_FEW_BITS,
    TOO_MANY_GROUPS,
    VALUE_TOO_LARGE,
    VERSION_NOT_ZERO,
    RESERVED_NOT_ZERO,
    NO_PRIMARY,
    PADDING_TOO_LONG,
    PADDING_NOT_ZERO,
    BYTES_AFTER,
];

const EVERY_SOURCE_REFUSED: [Outcome; KINDS * SOURCE_REFUSED.len()] = {
    let mut all = [("", 0); KINDS * SOURCE_REFUSED.len()];
    let mut place = 0;
    while place < all.len() {
        all[place] = (EDITS[place % KINDS], SOURCE_REFUSED[place / KINDS]);
        place += 1;
    }
    all
};

/// The most places of one carrier that are tried.
const PLACES: usize = 8;

const B_WITHOUT_ITS_PAYLOAD: [u8; 7] = [0x58, 0x38, 0x00, 0x03, 0x00, 0x10, 0x00];
const B_WITHOUT_A_BODY: [u8; 10] = [0x58, 0x38, 0x00, 0x06, 0x00, 0x42, 0x00, 0x02, 0x00, 0x00];

fn every_shape(tally: &mut Tally, random: &mut Random, length: Length) -> Result<(), Difference> {
    let mut editor = Editor::new();
    edits_of_b(&mut editor, tally)?;
    for contents in carriers::edges(random) {
        each_edit(&contents, &mut editor, tally, random)?;
    }
    for _ in 0..length.rounds(5, 60) {
        for _ in 0..200 {
            let payloads = random.up_to(6);
            let most_body = random.pick(&[0, 8, 40, 300]);
            let contents = shapes::draw_contents(random, payloads, most_body);
            each_edit(&contents, &mut editor, tally, random)?;
        }
        for contents in carriers::long(random) {
            some_edits(&contents, 3, &mut editor, tally, random)?;
        }
    }
    for _ in 0..length.rounds(1, 10) {
        for contents in nearly_longest(random) {
            some_edits(&contents, 1, &mut editor, tally, random)?;
        }
    }
    editor.mark(tally);
    Ok(())
}

/// The scope's own edits, with the carriers that it names.
fn edits_of_b(editor: &mut Editor, tally: &mut Tally) -> Result<(), Difference> {
    let empty = Step::Body {
        place: 0,
        body: Vec::new(),
    };
    let named: [(Step, &[u8]); 2] = [
        (Step::Drop { place: 0 }, &B_WITHOUT_ITS_PAYLOAD),
        (empty, &B_WITHOUT_A_BODY),
    ];
    for (step, carrier) in named {
        let source = Source::new(B.to_vec());
        let (_, left) = editor.check_once(&source, &step, carrier.len(), tally)?;
        assert_eq!(left.as_deref(), Some(carrier), "the scope's carrier");
    }
    Ok(())
}

/// Nearly as many bytes as can be declared, so that there is room for more; one or many payloads.
fn nearly_longest(random: &mut Random) -> [Contents; 4] {
    let mut most = carriers::most_payloads(random);
    most.payloads.truncate(27_000);
    let [one, some, many] = [1, 40, 700].map(|payloads| {
        let mut contents = shapes::draw_contents(random, payloads, 20);
        shapes::fill(&mut contents, MOST_DECLARED - 1_000);
        contents
    });
    [one, some, many, most]
}

/// Each edit at all places, or some of many, and at such as there aren't; and some for what is there already.
fn each_edit(
    contents: &Contents,
    editor: &mut Editor,
    tally: &mut Tally,
    random: &mut Random,
) -> Result<(), Difference> {
    let source = Source::new(contents.written().0);
    for place in steps::places(contents.payloads.len(), PLACES, random) {
        for kind in 0..4 {
            let most_body = random.pick(&[0, 3, 20, 300]);
            let step = steps::draw(kind, place, most_body, random);
            editor.check(&source, &step, tally)?;
        }
    }
    for kind in 4..KINDS {
        editor.check(&source, &steps::draw(kind, 0, 0, random), tally)?;
    }
    for step in as_it_is(contents, random) {
        tally.mark(AS_IT_IS);
        editor.check(&source, &step, tally)?;
    }
    Ok(())
}

/// Edits that change nothing but protections, and one that changes nothing.
fn as_it_is(contents: &Contents, random: &mut Random) -> Vec<Step> {
    let mut all = vec![scripts::key(contents), scripts::protection(contents)];
    let count = contents.payloads.len();
    if count > 0 {
        let place = random.up_to(count - 1);
        let payload = &contents.payloads[place];
        all.push(scripts::body(place, payload));
        all.push(scripts::settings(place, payload));
    }
    all
}

/// Each edit some times, at any place.
fn some_edits(
    contents: &Contents,
    times: usize,
    editor: &mut Editor,
    tally: &mut Tally,
    random: &mut Random,
) -> Result<(), Difference> {
    let source = Source::new(contents.written().0);
    let count = contents.payloads.len();
    for kind in (0..KINDS).cycle().take(KINDS * times) {
        let place = random.up_to(count);
        let most_body = random.pick(&[0, 20, 300]);
        let step = steps::draw(kind, place, most_body, random);
        editor.check(&source, &step, tally)?;
    }
    Ok(())
}

fn edge_arguments(
    tally: &mut Tally,
    random: &mut Random,
    length: Length,
) -> Result<(), Difference> {
    let mut arguments = Arguments::new();
    for _ in 0..length.rounds(3, 60) {
        for form in steps::every_form(random) {
            arguments.settings(form, tally, random)?;
        }
    }
    for _ in 0..length.rounds(1, 20) {
        for shape in 0..SHAPES {
            for settings in carriers::edge_settings(shape, random) {
                arguments.settings(plain::form(&settings), tally, random)?;
            }
            let settings = shapes::settings(shape, &Numbers::draw(random));
            for form in steps::spoilt(&settings, random) {
                arguments.settings(form, tally, random)?;
            }
        }
        for group_id in steps::every_group_id() {
            let mut settings = shapes::draw_settings(random);
            settings.group_id = Some(group_id);
            arguments.settings(plain::form(&settings), tally, random)?;
        }
        for id in steps::every_id() {
            arguments.numbers(id, tally, random)?;
        }
        for lengths in steps::every_protection_lengths() {
            let [primary, secondary] = lengths.map(|length| random.bytes(length));
            let step = Step::Protection { primary, secondary };
            arguments.step(&step, tally, random)?;
        }
        for size in SIZES.into_iter().chain(LONG_BODIES) {
            arguments.body(random.bytes(size), tally, random)?;
        }
    }
    arguments.endless(tally, random)?;
    let rarest = arguments.presences.into_iter().min().unwrap_or(0);
    tally.mark_times(RAREST_PRESENCES, rarest);
    Ok(())
}

/// Around the lengths that fit, and those that a size can say.
const LONG_BODIES: [usize; 12] = [
    254, 1_000, 4_095, 65_500, 65_520, 65_535, 65_536, 65_537, 65_791, 65_792, 65_793, 70_000,
];

/// Far more than can be declared, or lies in the memory of other inputs.
const ENDLESS: usize = 3_000_000;

/// Arguments put to small carriers.
struct Arguments {
    editor: Editor,
    presences: [u64; 256],
}

impl Arguments {
    fn new() -> Self {
        Self {
            editor: Editor::new(),
            presences: [0; 256],
        }
    }

    fn step(
        &mut self,
        step: &Step,
        tally: &mut Tally,
        random: &mut Random,
    ) -> Result<(), Difference> {
        let payloads = 1 + random.up_to(2);
        let contents = shapes::draw_contents(random, payloads, 8);
        let source = Source::new(contents.written().0);
        self.editor.check(&source, step, tally)
    }

    /// The bytes as settings of a payload that is there, and of a new one.
    fn settings(
        &mut self,
        form: Vec<u8>,
        tally: &mut Tally,
        random: &mut Random,
    ) -> Result<(), Difference> {
        match plain::formed(&form) {
            Some(settings) => self.presences[presences(&settings)] += 1,
            None => tally.mark(NO_FORM),
        }
        let step = Step::Settings {
            place: 0,
            settings: form.clone(),
        };
        self.step(&step, tally, random)?;
        let payload = shapes::draw_payload(random, 8);
        let step = Step::Insert {
            place: random.up_to(1),
            id: payload.id,
            settings: form,
            body: payload.body,
        };
        self.step(&step, tally, random)
    }

    /// The number as id and as key id.
    fn numbers(
        &mut self,
        number: u64,
        tally: &mut Tally,
        random: &mut Random,
    ) -> Result<(), Difference> {
        for near in [number, number.wrapping_add(1), number.wrapping_sub(1)] {
            let payload = shapes::draw_payload(random, 8);
            let step = Step::Insert {
                place: random.up_to(1),
                id: near,
                settings: plain::form(&payload.settings),
                body: payload.body,
            };
            self.step(&step, tally, random)?;
            self.step(&Step::Key { key_id: near }, tally, random)?;
        }
        Ok(())
    }

    /// The bytes as body of a payload that is there, and of a new one.
    fn body(
        &mut self,
        body: Vec<u8>,
        tally: &mut Tally,
        random: &mut Random,
    ) -> Result<(), Difference> {
        let place = random.up_to(1);
        let settings = plain::form(&shapes::draw_settings(random));
        let step = Step::Body {
            place: 0,
            body: body.clone(),
        };
        self.step(&step, tally, random)?;
        let step = Step::Insert {
            place,
            id: 1,
            settings,
            body,
        };
        self.step(&step, tally, random)
    }

    /// Slices of millions of bytes, each of them in its turn, and all at once.
    fn endless(&mut self, tally: &mut Tally, random: &mut Random) -> Result<(), Difference> {
        let long = vec![0x5a; ENDLESS];
        let settings = [plain::form(&Settings::LEAST), vec![0; ENDLESS]];
        self.body(long.clone(), tally, random)?;
        for settings in settings {
            for body in [long.clone(), Vec::new()] {
                let (place, id) = (0, 1);
                let settings = settings.clone();
                let step = Step::Insert {
                    place,
                    id,
                    settings,
                    body,
                };
                self.step(&step, tally, random)?;
            }
        }
        for (first, second) in [(ENDLESS, 0), (1, ENDLESS), (FORM, 0), (65_536 + 16, 65_536)] {
            let (primary, secondary) = (vec![0x5a; first], vec![0xa5; second]);
            let step = Step::Protection { primary, secondary };
            self.step(&step, tally, random)?;
        }
        let mut source = shapes::draw_contents(random, 2, 8).written().0;
        source.extend(long);
        let source = Source::new(source);
        for kind in (0..KINDS).cycle().take(5 * KINDS) {
            let step = steps::draw(kind, 0, 8, random);
            self.editor.check(&source, &step, tally)?;
        }
        Ok(())
    }
}

/// Which of the settings are there.
fn presences(settings: &Settings) -> usize {
    let numbers = [
        settings.sample_offset,
        settings.duration,
        settings.group_id,
        settings.priority,
        settings.processing,
    ];
    let bits = [settings.aligned, settings.create, settings.remove];
    let numbers = numbers.map(|number| number.is_some());
    let present = numbers.into_iter().chain(bits.map(|bit| bit.is_some()));
    present.fold(0, |all, is_there| 2 * all + usize::from(is_there))
}

/// What refuses the source comes before all that is wrong with the arguments.
fn damaged_sources(
    tally: &mut Tally,
    random: &mut Random,
    length: Length,
) -> Result<(), Difference> {
    let mut editor = Editor::new();
    let mut turn = 0;
    for _ in 0..length.rounds(200, 3_000) {
        let payloads = 1 + random.up_to(2);
        let contents = shapes::draw_contents(random, payloads, 8);
        let (carrier, _) = contents.written();
        let wrong = wrong::carriers(&contents, random).into_iter();
        let sums = wrong::sums_with_base(&contents, random).into_iter();
        let damaged = damage::small(&carrier, random).into_iter();
        let longer = with_bytes_after(&carrier, random).into_iter();
        let wrong = wrong.chain(sums).map(|wrong| wrong.carrier);
        for bytes in wrong.chain(damaged).chain(longer) {
            let source = Source::new(bytes);
            for _ in 0..2 {
                turn += 1;
                let step = draw_any(turn % KINDS, payloads, random);
                editor.check(&source, &step, tally)?;
            }
        }
    }
    Ok(())
}

/// One byte more, several, and the carrier once more.
pub fn with_bytes_after(carrier: &[u8], random: &mut Random) -> [Vec<u8>; 4] {
    let more = 1 + random.up_to(40);
    [
        vec![0],
        random.bytes(1),
        random.bytes(more),
        carrier.to_vec(),
    ]
    .map(|after| [carrier, &after].concat())
}

/// An edit of one kind, with something refused in half of the cases.
fn draw_any(kind: usize, payloads: usize, random: &mut Random) -> Step {
    let place = random.up_to(payloads + 1);
    let step = steps::draw(kind, place, 8, random);
    if random.one_in(2) {
        steps::spoil(step, random)
    } else {
        step
    }
}

/// Every set of questions that an edit can be answered no to; the first one's number is right.
fn several_noes(tally: &mut Tally, random: &mut Random, length: Length) -> Result<(), Difference> {
    let mut editor = Editor::new();
    let mut reached: Vec<(Noes, u64)> = Noes::all().map(|noes| (noes, 0)).collect();
    for round in 0..length.rounds(300, 3_000) {
        for (noes, times) in &mut reached {
            if noes.needs_a_full_source() && round % 100 != 0 {
                continue;
            }
            let refused = noes.draw(random);
            let source = Source::new(refused.source);
            let edit = Edit {
                source: &source.bytes,
                step: &refused.step,
                destination: refused.destination,
            };
            let number = plain::reply(&edit.after(&source.reading)).number;
            assert_eq!(number, refused.number, "{noes:?}");
            editor.check_once(&source, edit.step, edit.destination, tally)?;
            *times += 1;
        }
    }
    let rarest = reached.iter().map(|(_, times)| *times).min();
    tally.mark_times(RAREST_NOES, rarest.unwrap_or(0));
    Ok(())
}

fn limits_of_edits(
    tally: &mut Tally,
    random: &mut Random,
    length: Length,
) -> Result<(), Difference> {
    let mut editor = Editor::new();
    for _ in 0..length.rounds(20, 400) {
        durations(&mut editor, tally, random)?;
    }
    let mut reached: Vec<(Limit, u64)> = Limit::all().map(|limit| (limit, 0)).collect();
    for _ in 0..length.rounds(2, 30) {
        for (limit, times) in &mut reached {
            let (contents, step) = limit.draw(random);
            let source = Source::new(contents.written().0);
            let after = step.on(&contents, usize::MAX);
            let is_too_long = after == Err(Refusal::new(TOO_LONG, [0, 0]));
            assert_eq!(is_too_long, limit.declared() > MOST_DECLARED, "{limit:?}");
            editor.check(&source, &step, tally)?;
            *times += 1;
        }
        let full = limits::full(random);
        let source = Source::new(full.written().0);
        assert_eq!(source.bytes.len(), HEADER + MOST_DECLARED);
        for place in 0..full.payloads.len() {
            editor.check(&source, &Step::Drop { place }, tally)?;
        }
    }
    let rarest = reached.iter().map(|(_, times)| *times).min();
    tally.mark_times(RAREST_LIMIT, rarest.unwrap_or(0));
    Ok(())
}

/// The longest duration and the first that has no room, set and inserted.
fn durations(
    editor: &mut Editor,
    tally: &mut Tally,
    random: &mut Random,
) -> Result<(), Difference> {
    let contents = shapes::draw_contents(random, 2, 8);
    let source = Source::new(contents.written().0);
    for duration in [MOST_DURATION - 1, MOST_DURATION, MOST_DURATION + 1] {
        let mut settings = shapes::draw_settings(random);
        settings.duration = Some(duration);
        let settings = plain::form(&settings);
        let place = random.up_to(1);
        let step = Step::Settings {
            place,
            settings: settings.clone(),
        };
        editor.check(&source, &step, tally)?;
        let step = Step::Insert {
            place,
            id: 1,
            settings,
            body: random.bytes(3),
        };
        editor.check(&source, &step, tally)?;
    }
    Ok(())
}

fn blank_carriers(
    tally: &mut Tally,
    random: &mut Random,
    length: Length,
) -> Result<(), Difference> {
    let mut editor = Editor::new();
    for _ in 0..length.rounds(4, 200) {
        for key_id in steps::every_id() {
            for near in [key_id, key_id.wrapping_sub(1)] {
                let lengths = steps::draw_protections(random).map(|bytes| bytes.len());
                blank(near, lengths, &mut editor, tally, random)?;
            }
        }
        for lengths in steps::every_protection_lengths() {
            let key_id = random.word() >> random.up_to(63);
            blank(key_id, lengths, &mut editor, tally, random)?;
        }
    }
    for lengths in [[ENDLESS, 0], [1, ENDLESS], [65_536 + 16, 65_536]] {
        blank(0, lengths, &mut editor, tally, random)?;
    }
    Ok(())
}

/// The blank call with every length of the destination up to one more, and each edit of what it left.
fn blank(
    key_id: u64,
    protections: [usize; 2],
    editor: &mut Editor,
    tally: &mut Tally,
    random: &mut Random,
) -> Result<(), Difference> {
    let [primary, secondary] = protections.map(|length| random.bytes(length));
    let step = Step::Blank {
        key_id,
        primary,
        secondary,
    };
    editor.check(&Source::none(), &step, tally)?;
    let mut left = None;
    for destination in 0..60 {
        let (_, carrier) = editor.check_once(&Source::none(), &step, destination, tally)?;
        left = left.or(carrier);
    }
    if let Some(carrier) = left {
        let source = Source::new(carrier);
        for kind in 0..KINDS {
            editor.check(&source, &steps::draw(kind, 0, 8, random), tally)?;
        }
    }
    Ok(())
}
