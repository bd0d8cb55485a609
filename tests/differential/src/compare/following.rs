//! Puts recipes to the library, and compares answers and both buffers with the plain run.

use crate::editing::Source;
use crate::guard::Slot;
use crate::lent::Lent;
use crate::library;
use crate::recipe_mistakes::{self, Fault};
use crate::recipes_reached::Reached;
use crate::report::{Difference, Tally};
use crate::self_check;
use crate::shrink::{self, RecipeCase};
use differential::carrier::{Reading, Refusal, Reply};
use differential::facts;
use differential::plain::Step;
use differential::recipe::{self, Asked, Chain, Held, Ran};
use std::cell::RefCell;

const BUFFERS: [&str; 2] = ["first", "second"];

/// What the library is lent for one recipe after another, and what was reached by them.
pub struct Follower {
    desk: Desk,
    pub reached: Reached,
}

impl Follower {
    #[must_use]
    pub fn new() -> Self {
        Self {
            desk: Desk::new(),
            reached: Reached::new(),
        }
    }

    /// Checks and runs a file: the library's answer to the run, and the carrier that it left in a buffer, if any.
    ///
    /// # Errors
    ///
    /// Where an answer or a buffer is not right.
    pub fn check(
        &mut self,
        source: &Source,
        file: &[u8],
        rooms: [usize; 2],
        tally: &mut Tally,
    ) -> Result<Left, Difference> {
        let run = Some((&source.bytes[..], rooms));
        self.check_slices(&Asked { file, run }, &source.reading, true, tally)
    }

    /// The same on slices that the library gets as they lie, without shrinking: too long for a copy, or one in the other.
    ///
    /// # Errors
    ///
    /// Where an answer or a buffer is not right.
    pub fn check_as_it_lies(
        &mut self,
        source: &[u8],
        file: &[u8],
        rooms: [usize; 2],
        tally: &mut Tally,
    ) -> Result<Left, Difference> {
        let run = Some((source, rooms));
        self.check_slices(&Asked { file, run }, &facts::reading(source), false, tally)
    }

    fn check_slices(
        &mut self,
        asked: &Asked,
        reading: &Reading,
        is_copied: bool,
        tally: &mut Tally,
    ) -> Result<Left, Difference> {
        let chain = Chain::of(asked.file);
        let edits = chain.edits();
        let check = Asked {
            run: None,
            ..*asked
        };
        let right = Right::new(&check, &edits, reading);
        self.compare(&check, &right, is_copied, tally)?;
        let right = Right::new(asked, &edits, reading);
        let (reply, left) = self.compare(asked, &right, is_copied, tally)?;
        self.reached.count(asked.file, &chain, right.ran.as_ref());
        if let (Some(left), Some(ran)) = (&left, &right.ran) {
            if !is_read_so(left, &ran.held) {
                return Err(breaks_the_rule(asked, &ran.held, left));
            }
        }
        Ok((reply, left))
    }

    fn compare(
        &mut self,
        asked: &Asked,
        right: &Right,
        is_copied: bool,
        tally: &mut Tally,
    ) -> Result<Left, Difference> {
        tally.count(asked.name(), right.reply.number);
        if is_copied {
            let left = self.desk.left_on_copies(asked, right);
            left.map_err(|said| difference(asked, said))
        } else {
            let left = self.desk.left(asked, right);
            left.map_err(|said| Difference(format!("difference, not shrunk:\n{asked}{said}")))
        }
    }
}

/// The library's answer, and the carrier that it left in a buffer.
type Left = (Reply, Option<Vec<u8>>);

/// What is right for a call.
struct Right {
    /// Where the call has a list to run.
    ran: Option<Ran>,
    reply: Reply,
}

impl Right {
    fn new(asked: &Asked, edits: &Result<Vec<Step>, Refusal>, reading: &Reading) -> Self {
        let ran = match (edits, asked.run) {
            (Ok(edits), Some((source, rooms))) => {
                Some(recipe::run(Held::of(source, reading), edits, rooms))
            }
            _ => None,
        };
        let reply = match &ran {
            Some(ran) => ran.reply(),
            None => recipe::checked(edits),
        };
        Self { ran, reply }
    }

    /// What the first bytes of each buffer have to be; all others stay.
    fn written(&self) -> [&[u8]; 2] {
        match &self.ran {
            Some(ran) => ran.written.each_ref().map(|written| &written[..]),
            None => [&[], &[]],
        }
    }
}

/// The original reads what was left, and finds the plain contents.
fn is_read_so(left: &[u8], plain: &Held) -> bool {
    match (facts::reading(left), &plain.contents) {
        (Ok(found), Ok(contents)) => found.consumed == left.len() && found.contents == *contents,
        _ => false,
    }
}

/// Where one call's slices lie, and the buffers that are lent with them.
struct Desk {
    source: Slot,
    file: Slot,
    buffers: [Lent; 2],
    fault: Option<Fault>,
}

impl Desk {
    fn new() -> Self {
        Self {
            source: Slot::new(),
            file: Slot::new(),
            buffers: [Lent::new(), Lent::with_noise(1)],
            fault: self_check::fault(),
        }
    }

    /// The call on copies that the library may read, and do nothing else with.
    fn left_on_copies(&mut self, asked: &Asked, right: &Right) -> Result<Left, String> {
        self.file.put(asked.file);
        if let Some((source, _)) = asked.run {
            self.source.put(source);
        }
        let source = self.source.bytes();
        let guarded = Asked {
            file: self.file.bytes(),
            run: asked.run.map(|(_, rooms)| (source, rooms)),
        };
        left(&guarded, right, self.fault, &mut self.buffers)
    }

    fn left(&mut self, asked: &Asked, right: &Right) -> Result<Left, String> {
        left(asked, right, self.fault, &mut self.buffers)
    }

    fn disagreement_on(&mut self, case: &RecipeCase) -> Option<String> {
        let asked = case.asked();
        let reading = facts::reading(&case.source);
        let right = Right::new(&asked, &recipe::edits(&case.file), &reading);
        self.left_on_copies(&asked, &right).err()
    }
}

/// What the library said and left, or what both sides said where that is not the same.
fn left(
    asked: &Asked,
    right: &Right,
    fault: Option<Fault>,
    buffers: &mut [Lent; 2],
) -> Result<Left, String> {
    let replied = match fault {
        None => library::recipe(asked, buffers),
        Some(fault) => recipe_mistakes::played(fault, asked, buffers),
    };
    let written = right.written();
    let mut pairs = buffers.iter().zip(written);
    let hold = pairs.all(|(buffer, written)| buffer.holds(written));
    if replied.reply == right.reply && replied.frame_intact && hold {
        let left = carrier_left(right, buffers);
        for (buffer, written) in buffers.iter_mut().zip(written) {
            buffer.restore(written.len());
        }
        return Ok((replied.reply, left));
    }
    let words = asked.words();
    let mut said = format!("  plain     {}\n", right.reply.shown_words(words));
    said += &format!("  library   {}\n", replied.reply.shown_words(words));
    if !replied.frame_intact {
        said += "  library   wrote beside its answer\n";
    }
    for ((buffer, written), name) in buffers.iter_mut().zip(written).zip(BUFFERS) {
        if !buffer.holds(written) {
            said += &buffer_difference(written, buffer, name);
        }
        buffer.restore_all();
    }
    Err(said)
}

/// The first bytes of the buffer that the run has to name, as the library left them.
fn carrier_left(right: &Right, buffers: &[Lent; 2]) -> Option<Vec<u8>> {
    let ran = right.ran.as_ref()?;
    let place = ran.holder().checked_sub(1)?;
    Some(buffers[place].lent()[..ran.held.length].to_vec())
}

/// The first place where a buffer is not as it has to be.
fn buffer_difference(written: &[u8], buffer: &Lent, name: &str) -> String {
    match buffer.wrong_byte(written) {
        Some((byte, wanted, is)) if byte < written.len() => format!(
            "  plain     byte {byte} of the {name} buffer: {wanted:02x}\n  library   byte {byte} of the {name} buffer: {is:02x}\n"
        ),
        Some((byte, ..)) => {
            format!("  library   changed byte {byte} of the {name} buffer, which had to stay\n")
        }
        None => format!("  library   wrote beside its {name} buffer\n"),
    }
}

#[cold]
fn breaks_the_rule(asked: &Asked, plain: &Held, left: &[u8]) -> Difference {
    let heading = "the library leaves the plain contents' carrier, but the Rust finds others:";
    let contents = &plain.contents;
    let rust = facts::reading(left);
    let said = format!("  plain     {contents:?}\n  Rust      {rust:?}\n");
    Difference(format!("{heading}\n{asked}{said}"))
}

/// Reports the smallest call that differs on its own.
#[cold]
fn difference(asked: &Asked, first: String) -> Difference {
    let case = RecipeCase::new(asked);
    let desk = RefCell::new(Desk::new());
    let said = |case: &RecipeCase| desk.borrow_mut().disagreement_on(case);
    let (heading, case, said) = if said(&case).is_some() {
        let differs = |case: &RecipeCase| said(case).is_some();
        let patience = self_check::patience();
        let case = shrink::smallest(patience, case, shrink::smaller_recipes, differs);
        let said = said(&case).unwrap_or_default();
        ("difference, shrunk:", case, said)
    } else {
        let heading = "difference after earlier calls only, the call alone agrees:";
        (heading, case, first)
    };
    Difference(format!("{heading}\n{}{said}", case.asked()))
}
