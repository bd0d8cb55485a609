//! Puts edits to the library and compares answer and destination with the plain contents.

use crate::guard::Slot;
use crate::lent::Lent;
use crate::library::{self, Replied};
use crate::report::{Difference, Tally};
use crate::self_check::{self, Player};
use crate::shrink::{self, EditCase};
use differential::carrier::{Reading, Refusal, Reply, HEADER, MOST_DECLARED, TOO_LONG};
use differential::case::ACCEPTED;
use differential::contents::Contents;
use differential::facts;
use differential::plain::{self, Edit, Step};
use differential::shapes::{PRIMARIES, SECONDARIES};
use std::cell::{OnceCell, RefCell};
use std::collections::HashMap;

/// How often the rarest two bits of a byte were those at which source and edited carrier ended.
pub const RAREST_ENDS: &str = "each-ends";

/// How often the rarest edit cleared protections of the rarest two lengths that were not zeros.
pub const RAREST_CLEARED: &str = "each-cleared";

/// The edits that write zeros over both protections.
const CLEARING: [&str; 5] = [
    "edit_body",
    "edit_settings",
    "edit_drop",
    "edit_insert",
    "edit_key",
];

/// Bytes to be edited, and the original's reading of them.
pub struct Source {
    pub bytes: Vec<u8>,
    pub reading: Reading,
}

impl Source {
    #[must_use]
    pub fn new(bytes: Vec<u8>) -> Self {
        let reading = facts::reading(&bytes);
        Self { bytes, reading }
    }

    /// For a call that has none.
    #[must_use]
    pub fn none() -> Self {
        Self::new(Vec::new())
    }
}

/// What the library is lent for one edit after another, and what was reached by them.
pub struct Editor {
    desk: Desk,
    ends: [[u64; 8]; 8],
    /// By edit, and the lengths of the protections.
    cleared: HashMap<(&'static str, [usize; 2]), u64>,
}

impl Editor {
    #[must_use]
    pub fn new() -> Self {
        Self {
            desk: Desk::new(),
            ends: [[0; 8]; 8],
            cleared: HashMap::new(),
        }
    }

    /// A step on a source, with destinations of several lengths.
    ///
    /// # Errors
    ///
    /// Where the library's answer or destination is not right.
    pub fn check(
        &mut self,
        source: &Source,
        step: &Step,
        tally: &mut Tally,
    ) -> Result<(), Difference> {
        let right = Right::new(source, step);
        for destination in right.destinations() {
            self.compare(&right, destination, tally)?;
        }
        Ok(())
    }

    /// The same, with a destination of one length: the library's answer and what it left, if any.
    ///
    /// # Errors
    ///
    /// Where the library's answer or destination is not right.
    pub fn check_once(
        &mut self,
        source: &Source,
        step: &Step,
        destination: usize,
        tally: &mut Tally,
    ) -> Result<Left, Difference> {
        let right = Right::new(source, step);
        self.compare(&right, destination, tally)
    }

    /// Marks the rarest two ends and the rarest protections of all edits so far.
    pub fn mark(&self, tally: &mut Tally) {
        let rarest = self.ends.iter().flatten().min();
        tally.mark_times(RAREST_ENDS, rarest.copied().unwrap_or(0));
        let lengths = PRIMARIES.map(|primary| SECONDARIES.map(|secondary| [primary, secondary]));
        let all = CLEARING.into_iter().flat_map(|edit| {
            let lengths = lengths.iter().flatten();
            lengths.map(move |lengths| (edit, *lengths))
        });
        let rarest = all.map(|key| self.cleared.get(&key).copied().unwrap_or(0));
        tally.mark_times(RAREST_CLEARED, rarest.min().unwrap_or(0));
    }

    fn compare(
        &mut self,
        right: &Right,
        destination: usize,
        tally: &mut Tally,
    ) -> Result<Left, Difference> {
        let edit = right.edit(destination);
        let after = right.after(destination);
        let wanted = plain::reply(&after);
        tally.count(edit.step.name(), wanted.number);
        let (reply, left) = match self.desk.left(right, destination, wanted) {
            Ok(left) => left,
            Err(said) => return Err(difference(&edit, said)),
        };
        if let (Some(left), Ok(after)) = (&left, &after) {
            self.count(edit.step, &right.source.reading, after);
            let is_read_so = || right.is_read_so(left, after);
            if !right.is_read_so.get_or_init(is_read_so) {
                return Err(breaks_the_rule(&edit, after, left));
            }
        }
        Ok((reply, left))
    }

    fn count(&mut self, step: &Step, reading: &Reading, after: &Contents) {
        if let Ok(found) = reading {
            let before = &found.contents;
            let ends = [before, after].map(|contents| plain::bits_needed(contents) % 8);
            self.ends[ends[0]][ends[1]] += 1;
            if *before != before.cleared() {
                let lengths = [before.primary.len(), before.secondary.len()];
                *self.cleared.entry((step.name(), lengths)).or_insert(0) += 1;
            }
        }
    }
}

/// The library's answer, and the carrier that it left where it accepted.
type Left = (Reply, Option<Vec<u8>>);

/// What is right for a step on a source.
struct Right<'a> {
    source: &'a Source,
    step: &'a Step,
    /// What is left in a destination that is long enough, if any can be.
    carrier: Result<Vec<u8>, Refusal>,
    /// Whether the original reads that so; it is asked once.
    is_read_so: OnceCell<bool>,
}

impl<'a> Right<'a> {
    fn new(source: &'a Source, step: &'a Step) -> Self {
        let mut right = Self {
            source,
            step,
            carrier: Ok(Vec::new()),
            is_read_so: OnceCell::new(),
        };
        right.carrier = right.after(usize::MAX).map(|after| {
            let (carrier, _) = after.written();
            assert_eq!(carrier.len(), plain::length(&after), "the scope's bits formula");
            carrier
        });
        right
    }

    fn edit(&self, destination: usize) -> Edit<'a> {
        Edit {
            source: &self.source.bytes,
            step: self.step,
            destination,
        }
    }

    /// The plain contents after the edit.
    fn after(&self, destination: usize) -> Result<Contents, Refusal> {
        self.edit(destination).after(&self.source.reading)
    }

    /// What the first bytes of the destination have to be; all others stay.
    fn written(&self, destination: usize) -> &[u8] {
        match &self.carrier {
            Ok(carrier) if carrier.len() <= destination => carrier,
            _ => &[],
        }
    }

    /// Just long enough, longer, one byte too short, and none.
    fn destinations(&self) -> Vec<usize> {
        match &self.carrier {
            Ok(carrier) => {
                let needed = carrier.len();
                vec![needed, needed + 1 + needed % 40, needed - 1, 0]
            }
            Err(refusal) if refusal.number == TOO_LONG => vec![HEADER + MOST_DECLARED + 9, 0],
            Err(_) => vec![self.source.bytes.len() + 300, 0],
        }
    }

    /// The original reads what was left, and finds the source's contents with that change and no other.
    fn is_read_so(&self, left: &[u8], after: &Contents) -> bool {
        let Ok(found) = facts::reading(left) else {
            return false;
        };
        found.consumed == left.len()
            && found.contents == *after
            && match &self.source.reading {
                Ok(source) if self.step.has_source() => {
                    without(self.step, &source.contents, found.contents).as_ref()
                        == Some(&source.contents)
                }
                _ => true,
            }
    }
}

/// The contents with what a step changes as it was before, if it is now as the step has it.
fn without(step: &Step, before: &Contents, mut after: Contents) -> Option<Contents> {
    let is_done = match step {
        Step::Body { place, body } => {
            let payload = after.payloads.get_mut(*place)?;
            let old = before.payloads[*place].body.clone();
            std::mem::replace(&mut payload.body, old) == *body
        }
        Step::Settings { place, settings } => {
            let payload = after.payloads.get_mut(*place)?;
            let old = before.payloads[*place].settings;
            plain::form(&std::mem::replace(&mut payload.settings, old)) == *settings
        }
        Step::Drop { place } => {
            let old = before.payloads[*place].clone();
            after.payloads.insert(*place, old);
            true
        }
        Step::Insert {
            place,
            id,
            settings,
            body,
        } => {
            let new = after.payloads.remove(*place);
            new.id == *id && plain::form(&new.settings) == *settings && new.body == *body
        }
        Step::Key { key_id } => std::mem::replace(&mut after.key_id, before.key_id) == *key_id,
        Step::Protection { .. } => true,
        Step::Blank { .. } => false,
    };
    // Zeros as long as they were, unless others are given.
    let [primary, secondary] = match step {
        Step::Protection { primary, secondary } => [primary.clone(), secondary.clone()],
        _ => [&before.primary, &before.secondary].map(|bytes| vec![0; bytes.len()]),
    };
    let is_protected = after.primary == primary && after.secondary == secondary;
    after.primary.clone_from(&before.primary);
    after.secondary.clone_from(&before.secondary);
    (is_done && is_protected).then_some(after)
}

/// Where one edit's slices lie, and the memory that is lent with them.
struct Desk {
    source: Slot,
    slices: [Slot; 2],
    lent: Lent,
    player: Option<Player>,
}

impl Desk {
    fn new() -> Self {
        Self {
            source: Slot::new(),
            slices: [Slot::new(), Slot::new()],
            lent: Lent::new(),
            player: self_check::player(),
        }
    }

    /// What the library said and left, or what both sides said where that is not the same.
    fn left(&mut self, right: &Right, destination: usize, wanted: Reply) -> Result<Left, String> {
        let replied = self.replied(&right.edit(destination));
        let written = right.written(destination);
        let agrees = replied.reply == wanted && replied.frame_intact && self.lent.holds(written);
        if agrees {
            let left = self.lent.lent()[..written.len()].to_vec();
            self.lent.restore(written.len());
            let left = (replied.reply.number == ACCEPTED).then_some(left);
            return Ok((replied.reply, left));
        }
        let mut said = format!("  plain     {}\n", wanted.shown_words(2));
        said += &format!("  library   {}\n", replied.reply.shown_words(2));
        if !replied.frame_intact {
            said += "  library   wrote beside its answer\n";
        }
        if !self.lent.holds(written) {
            said += &destination_difference(written, &self.lent);
        }
        self.lent.restore_all();
        Err(said)
    }

    fn replied(&mut self, edit: &Edit) -> Replied {
        if let Some(player) = self.player {
            return self_check::played(player, edit, &mut self.lent);
        }
        self.source.put(edit.source);
        for (slot, slice) in self.slices.iter_mut().zip(edit.step.slices()) {
            slot.put(slice);
        }
        let guarded = Edit {
            source: self.source.bytes(),
            ..*edit
        };
        let slices = self.slices.each_ref().map(Slot::bytes);
        library::edit(&guarded, slices, &mut self.lent)
    }

    fn disagreement_on(&mut self, case: &EditCase) -> Option<String> {
        let source = Source::new(case.source.clone());
        let right = Right::new(&source, &case.step);
        let wanted = plain::reply(&right.after(case.destination));
        self.left(&right, case.destination, wanted).err()
    }
}

/// The first place where the destination is not as it has to be.
fn destination_difference(written: &[u8], lent: &Lent) -> String {
    match lent.wrong_byte(written) {
        Some((byte, wanted, is)) if byte < written.len() => format!(
            "  plain     byte {byte} of the carrier: {wanted:02x}\n  library   byte {byte} of the carrier: {is:02x}\n"
        ),
        Some((byte, ..)) => {
            format!("  library   changed byte {byte} of the destination, which had to stay\n")
        }
        None => "  library   wrote beside its destination\n".to_string(),
    }
}

#[cold]
fn breaks_the_rule(edit: &Edit, after: &Contents, left: &[u8]) -> Difference {
    let heading = "the library leaves the plain contents' carrier, but the Rust finds others:";
    let rust = facts::reading(left);
    let said = format!("  plain     {after:?}\n  Rust      {rust:?}\n");
    Difference(format!("{heading}\n{edit}{said}"))
}

/// Reports the smallest edit that differs on its own.
#[cold]
fn difference(edit: &Edit, first: String) -> Difference {
    let case = EditCase {
        source: edit.source.to_vec(),
        step: edit.step.clone(),
        destination: edit.destination,
    };
    let desk = RefCell::new(Desk::new());
    let said = |case: &EditCase| desk.borrow_mut().disagreement_on(case);
    let (heading, case, said) = if said(&case).is_some() {
        let differs = |case: &EditCase| said(case).is_some();
        let patience = self_check::patience();
        let case = shrink::smallest(patience, case, shrink::smaller_edits, differs);
        let said = said(&case).unwrap_or_default();
        ("difference, shrunk:", case, said)
    } else {
        let heading = "difference after earlier calls only, the call alone agrees:";
        (heading, case, first)
    };
    Difference(format!("{heading}\n{}{said}", case.edit()))
}
