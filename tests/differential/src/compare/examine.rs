//! Puts the calls on a carrier to both sides and compares every figure, and all that was lent.

use crate::guard::Place;
use crate::lent::Lent;
use crate::library::{self, Replied};
use crate::miscounts;
use crate::misnumbers;
use crate::reached::Reached;
use crate::report::{Difference, Tally};
use crate::self_check;
use crate::shrink::{self, CarrierCase};
use differential::carrier::{most_rows, Ask, Asked, Reading, NUMBERS, ROW, ROW_WORDS};
use differential::facts::{Class, Facts};
use differential::finds::Named;
use differential::groups::{self, FIELDS};
use differential::profile::{self, STRICT};
use differential::shapes::{self, SHAPES};
use std::cell::RefCell;

pub const NON_EMDF: &str = "NonEmdf";
pub const PARSED: &str = "Parsed";
pub const TRAILING_DATA: &str = "TrailingData";
pub const MALFORMED: &str = "Malformed";

/// How often the rarest of the eight bits of a byte was a body's first.
pub const RAREST_PHASE: &str = "each-phase";

/// How often the rarest combination of settings stood in a row.
pub const RAREST_SETTINGS: &str = "each-settings";

/// How often the rarest of the variable fields alone had the most groups of a carrier.
pub const RAREST_FIELD: &str = "each-field";

/// How often a body was chosen in the carrier, in the scratch, and nowhere.
pub const IN_THE_CARRIER: &str = "in-carrier";
pub const IN_THE_SCRATCH: &str = "in-scratch";
pub const NO_BODY: &str = "no-body";

/// The most bytes of a chosen body that are looked at; its length always is.
const MOST_CHOSEN: usize = 2_000;

/// Numbers that are compat, asked in turns; the low bits of some are all 0.
const COMPAT: [u32; 7] = [1, 2, 3, 256, 1 << 16, 1 << 31, u32::MAX];

/// So many carriers of each outcome are read by the calls that no host has too, and then one in so many: 512 records
/// are made each time.
const TRACED_FIRST: usize = 200;
const TRACED: usize = 61;

/// What the library is lent for one carrier after another, and what was reached by them.
pub struct Examiner {
    desk: Desk,
    settings: [u64; SHAPES],
    fields: [u64; FIELDS],
    phases: [u64; 8],
    pub reached: Reached,
    /// How many verdicts of compat were asked for.
    turns: usize,
    /// How many carriers were read with each number.
    read: [usize; NUMBERS],
}

impl Examiner {
    #[must_use]
    pub fn new() -> Self {
        Self {
            desk: Desk::new(),
            settings: [0; SHAPES],
            fields: [0; FIELDS],
            phases: [0; 8],
            reached: Reached::new(),
            turns: 0,
            read: [0; NUMBERS],
        }
    }

    /// The calls that read a carrier, with tables of several lengths.
    ///
    /// # Errors
    ///
    /// Where the library's answer is not the original's.
    pub fn check<'a>(
        &mut self,
        bytes: &'a [u8],
        tally: &mut Tally,
    ) -> Result<Facts<'a>, Difference> {
        let facts = Facts::new(bytes);
        tally.mark(class_name(facts.class()));
        self.count_settings(&facts.reading);
        self.count_field(&facts.reading);
        self.desk.place.put(bytes);
        self.compare(Ask::Classify, bytes, &facts, tally)?;
        let is_traced = self.is_traced(facts.reply(Ask::Read { table: usize::MAX }).number);
        if is_traced {
            self.compare(Ask::Parse, bytes, &facts, tally)?;
        }
        for table in tables(bytes.len(), &facts) {
            self.compare(Ask::Read { table }, bytes, &facts, tally)?;
            if is_traced {
                self.compare(Ask::Trace { table }, bytes, &facts, tally)?;
            }
        }
        Ok(facts)
    }

    /// The same, where a rule outside both sides gives the reading too.
    ///
    /// # Errors
    ///
    /// Where the library's answer is not the original's, or both break the rule.
    pub fn check_with_rule(
        &mut self,
        bytes: &[u8],
        ruled: &Reading,
        tally: &mut Tally,
    ) -> Result<(), Difference> {
        let reading = self.check(bytes, tally)?.reading;
        if reading == *ruled {
            return Ok(());
        }
        let table = ROW * most_rows(bytes.len());
        let ask = Ask::Read { table };
        let said = [ruled, &reading].map(|reading| format!("{reading:?}"));
        Err(breaks_the_rule(bytes, ask, &said))
    }

    /// The verdicts on a carrier; the scope's profile, on what the original reads, gives them too.
    ///
    /// # Errors
    ///
    /// Where the library's answer is not the original's, or both break the rule.
    pub fn check_verdicts(&mut self, bytes: &[u8], tally: &mut Tally) -> Result<(), Difference> {
        let facts = Facts::new(bytes);
        self.compare_verdicts(bytes, &facts, &facts.reading, tally)
    }

    /// The same, where a rule outside both sides gives the reading too.
    ///
    /// # Errors
    ///
    /// Where the library's answer is not the original's, or both break the rule.
    pub fn check_verdicts_with_rule(
        &mut self,
        bytes: &[u8],
        ruled: &Reading,
        tally: &mut Tally,
    ) -> Result<(), Difference> {
        self.compare_verdicts(bytes, &Facts::new(bytes), ruled, tally)
    }

    /// The bodies at these places of a carrier, with scratches of several lengths.
    ///
    /// # Errors
    ///
    /// Where the library's answer is not what the original's container gives.
    pub fn check_bodies(
        &mut self,
        bytes: &[u8],
        places: &[usize],
        tally: &mut Tally,
    ) -> Result<(), Difference> {
        let facts = Facts::new(bytes);
        self.desk.place.put(bytes);
        for &place in places {
            if let Some((_, start)) = facts.body(place) {
                self.phases[start % 8] += 1;
            }
            for scratch in scratches(&facts, place) {
                self.compare(Ask::MoveBody { place, scratch }, bytes, &facts, tally)?;
            }
            self.compare_chosen(place, bytes, &facts, tally)?;
        }
        Ok(())
    }

    /// The places of these ids and ordinals in a carrier.
    ///
    /// # Errors
    ///
    /// Where the library's answer is not what the definition gives for the original's container.
    pub fn check_names(
        &mut self,
        bytes: &[u8],
        names: &[Named],
        tally: &mut Tally,
    ) -> Result<(), Difference> {
        let facts = Facts::new(bytes);
        self.desk.place.put(bytes);
        for &(id, ordinal) in names {
            self.compare(Ask::Find { id, ordinal }, bytes, &facts, tally)?;
        }
        Ok(())
    }

    /// Marks the rarest settings of all carriers so far.
    pub fn mark_settings(&self, tally: &mut Tally) {
        let rarest = self.settings.into_iter().min().unwrap_or(0);
        tally.mark_times(RAREST_SETTINGS, rarest);
    }

    /// Marks the rarest field that decided the groups of all carriers so far.
    pub fn mark_fields(&self, tally: &mut Tally) {
        let rarest = self.fields.into_iter().min().unwrap_or(0);
        tally.mark_times(RAREST_FIELD, rarest);
    }

    /// Marks the rarest first bit of all bodies so far.
    pub fn mark_phases(&self, tally: &mut Tally) {
        let rarest = self.phases.into_iter().min().unwrap_or(0);
        tally.mark_times(RAREST_PHASE, rarest);
    }

    fn is_traced(&mut self, number: u32) -> bool {
        let read = &mut self.read[number as usize];
        *read += 1;
        *read <= TRACED_FIRST || *read % TRACED == 0
    }

    fn count_settings(&mut self, reading: &Reading) {
        if let Ok(found) = reading {
            for payload in &found.contents.payloads {
                self.settings[shapes::shape(&payload.settings)] += 1;
            }
        }
    }

    fn count_field(&mut self, reading: &Reading) {
        let found = reading.as_ref().ok();
        if let Some(field) = found.and_then(|found| groups::deciding(&found.contents)) {
            self.fields[field as usize] += 1;
        }
    }

    fn compare_verdicts(
        &mut self,
        bytes: &[u8],
        facts: &Facts,
        ruled: &Reading,
        tally: &mut Tally,
    ) -> Result<(), Difference> {
        self.desk.place.put(bytes);
        self.turns += 1;
        for profile in [STRICT, COMPAT[self.turns % COMPAT.len()]] {
            let ask = Ask::Verdict { profile };
            self.compare(ask, bytes, facts, tally)?;
            let reply = facts.reply(ask);
            self.reached.count(profile, &reply, facts.count());
            let ruled = profile::verdict(ruled, profile);
            if reply != ruled {
                let said = [ruled, reply].map(|reply| reply.shown(ask));
                return Err(breaks_the_rule(bytes, ask, &said));
            }
        }
        self.compare(Ask::StrictVerdict, bytes, facts, tally)
    }

    /// The body that is chosen: after a move, and with noise in a scratch that is just long enough, or one byte too short.
    fn compare_chosen(
        &mut self,
        place: usize,
        bytes: &[u8],
        facts: &Facts,
        tally: &mut Tally,
    ) -> Result<(), Difference> {
        let ask = |scratch, is_moved, room| Ask::ChooseBody {
            place,
            scratch,
            is_moved,
            room,
        };
        let Some((body, start)) = facts.body(place) else {
            tally.mark(NO_BODY);
            return self.compare(ask(300, false, 5), bytes, facts, tally);
        };
        let room = body.len().min(MOST_CHOSEN);
        self.compare(ask(body.len(), true, room), bytes, facts, tally)?;
        for scratch in [body.len(), body.len().saturating_sub(1)] {
            tally.mark(match start % 8 {
                0 => IN_THE_CARRIER,
                _ if body.len() <= scratch => IN_THE_SCRATCH,
                _ => NO_BODY,
            });
            self.compare(ask(scratch, false, room + 5), bytes, facts, tally)?;
        }
        Ok(())
    }

    fn compare(
        &mut self,
        ask: Ask,
        bytes: &[u8],
        facts: &Facts,
        tally: &mut Tally,
    ) -> Result<(), Difference> {
        tally.count(ask.name(), facts.reply(ask).number);
        match self.desk.disagreement(ask, facts) {
            None => Ok(()),
            Some(said) => Err(difference(bytes, ask, said)),
        }
    }
}

/// Where one carrier lies, and the memory that is lent with it.
struct Desk {
    place: Place,
    lent: Lent,
}

impl Desk {
    fn new() -> Self {
        Self {
            place: Place::new(),
            lent: Lent::new(),
        }
    }

    fn disagreement(&mut self, ask: Ask, facts: &Facts) -> Option<String> {
        disagreement(self.place.bytes(), ask, facts, &mut self.lent)
    }

    fn disagreement_on(&mut self, case: &CarrierCase) -> Option<String> {
        self.place.put(&case.bytes);
        self.disagreement(case.ask, &Facts::new(&case.bytes))
    }
}

/// The reply of the library, or of what stands in its place.
pub fn replied(bytes: &[u8], ask: Ask, facts: &Facts, lent: &mut Lent) -> Replied {
    match (self_check::miscount(), self_check::misnumber()) {
        (None, None) => library::reply(bytes, ask, lent),
        (Some(miscount), _) => miscounts::replied(miscount, ask, facts, lent),
        (None, Some(misnumber)) => misnumbers::replied(misnumber, ask, facts, lent),
    }
}

/// What both sides said, where that is not the same in every figure and byte.
pub fn disagreement(bytes: &[u8], ask: Ask, facts: &Facts, lent: &mut Lent) -> Option<String> {
    let replied = replied(bytes, ask, facts, lent);
    let written = facts.written(ask);
    if replied.reply == facts.reply(ask) && replied.frame_intact && lent.holds(&written) {
        lent.restore(written.len());
        return None;
    }
    let said = both_sides(ask, facts, &replied, lent);
    lent.restore_all();
    Some(said)
}

#[must_use]
pub fn class_name(class: Class) -> &'static str {
    match class {
        Class::NonEmdf => NON_EMDF,
        Class::Parsed => PARSED,
        Class::TrailingData => TRAILING_DATA,
        Class::Malformed => MALFORMED,
    }
}

/// Lengths of tables; a carrier that is refused has rows for all that could have been filled before.
fn tables(length: usize, facts: &Facts) -> Vec<usize> {
    let rest = 1 + length % (ROW - 1);
    let count = facts.count();
    let all = ROW * count;
    match facts.reading {
        Err(_) => vec![ROW * (most_rows(length) + 1) + rest, 0],
        Ok(_) if count == 0 => vec![0, rest, 2 * ROW, 3 * ROW + rest],
        Ok(_) => vec![
            all + 2 * ROW,
            all,
            all - ROW,
            all - 1,
            0,
            all + 3 * ROW + rest,
        ],
    }
}

/// Scratches for a body: just long enough, longer, one byte too short, and none.
fn scratches(facts: &Facts, place: usize) -> Vec<usize> {
    match facts.body(place) {
        Some(([], _)) => vec![0, 9],
        Some((body, _)) => vec![body.len(), body.len() + 9, body.len() - 1, 0],
        None => vec![300, 0],
    }
}

#[cold]
fn breaks_the_rule(bytes: &[u8], ask: Ask, [rule, both]: &[String; 2]) -> Difference {
    let case = Asked { bytes, ask };
    let heading = "both sides agree, but not with the rule:";
    let said = format!("  rule      {rule}\n  both      {both}\n");
    Difference(format!("{heading}\n{case}{said}"))
}

/// Reports the smallest carrier that differs on its own.
#[cold]
fn difference(bytes: &[u8], ask: Ask, first: String) -> Difference {
    let case = CarrierCase {
        bytes: bytes.to_vec(),
        ask,
    };
    let desk = RefCell::new(Desk::new());
    let said = |case: &CarrierCase| desk.borrow_mut().disagreement_on(case);
    let (heading, case, said) = if said(&case).is_some() {
        let patience = self_check::patience();
        let differs = |case: &CarrierCase| said(case).is_some();
        let case = shrink::smallest(patience, case, shrink::smaller_carriers, differs);
        let said = said(&case).unwrap_or_default();
        ("difference, shrunk:", case, said)
    } else {
        let heading = "difference after earlier calls only, the call alone agrees:";
        (heading, case, first)
    };
    let asked = Asked {
        bytes: &case.bytes,
        ask: case.ask,
    };
    Difference(format!("{heading}\n{asked}{said}"))
}

fn both_sides(ask: Ask, facts: &Facts, replied: &Replied, lent: &Lent) -> String {
    let mut said = format!(
        "  Rust      {}\n  library   {}\n",
        facts.reply(ask).shown(ask),
        replied.reply.shown(ask)
    );
    if !replied.frame_intact {
        said += "  library   wrote beside its answer\n";
    }
    let written = facts.written(ask);
    if !lent.holds(&written) {
        said += &lent_difference(ask, &written, lent);
    }
    said
}

/// The first place where what was lent is not as it has to be.
fn lent_difference(ask: Ask, written: &[u8], lent: &Lent) -> String {
    let wanted = written.iter().chain(&lent.lent_before()[written.len()..]);
    let byte = wanted
        .zip(lent.lent())
        .position(|(wanted, is)| wanted != is);
    let Some(byte) = byte else {
        return "  library   wrote beside what it was lent\n".to_string();
    };
    if byte >= written.len() {
        return format!("  library   changed byte {byte} of what it was lent, which had to stay\n");
    }
    let (place, [wanted, is]) = if matches!(ask, Ask::Read { .. } | Ask::Trace { .. }) {
        number_at(byte / 8, [written, lent.lent()])
    } else {
        let bytes = [written, lent.lent()].map(|bytes| u64::from(bytes[byte]));
        (format!("byte {byte} of the body"), bytes)
    };
    format!("  Rust      {place}: {wanted}\n  library   {place}: {is}\n")
}

/// Where a number of a table stands, and what it is in each of two tables.
fn number_at(number: usize, tables: [&[u8]; 2]) -> (String, [u64; 2]) {
    let place = format!("row {}, number {}", number / ROW_WORDS, number % ROW_WORDS);
    let numbers = tables.map(|table| {
        let (numbers, _) = table.as_chunks();
        u64::from_be_bytes(numbers[number])
    });
    (place, numbers)
}
