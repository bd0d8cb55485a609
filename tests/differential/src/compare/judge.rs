//! Puts the same call to both sides and compares every figure of the answers.

use crate::guard::Input;
use crate::library::{self, Observed};
use crate::miscounts;
use crate::model;
use crate::report::{Difference, Tally};
use crate::self_check;
use crate::shrink::{self, Case};
use differential::case::{Answer, Call, Cursor, Described, Request};
use differential::oracle::{self, Reader};

/// A slice and the library's own guarded copy of it.
pub struct Subject<'a> {
    bytes: &'a [u8],
    input: Input,
}

impl<'a> Subject<'a> {
    #[must_use]
    pub fn new(bytes: &'a [u8]) -> Self {
        Self {
            bytes,
            input: Input::new(bytes),
        }
    }

    /// One call on its own.
    ///
    /// # Errors
    ///
    /// Where the library's answer is not the expected one.
    pub fn check(&self, request: Request, tally: &mut Tally) -> Result<Answer, Difference> {
        self.compare(request, expected(self.bytes, request), tally)
    }

    /// One call on its own, to which a rule outside both sides gives the answer too.
    ///
    /// # Errors
    ///
    /// Where the library's answer is not the expected one, or both break the rule.
    pub fn check_with_rule(
        &self,
        request: Request,
        ruled: Answer,
        tally: &mut Tally,
    ) -> Result<(), Difference> {
        let answer = self.check(request, tally)?;
        if answer == ruled {
            return Ok(());
        }
        let case = Described {
            bytes: self.bytes,
            request,
        };
        let said = format!("  rule      {ruled}\n  both      {answer}\n");
        let heading = "both sides agree, but not with the rule:";
        Err(Difference(format!("{heading}\n{case}{said}")))
    }

    /// The library's answer, where it is the expected one in every figure, and a reader's too.
    fn compare(
        &self,
        request: Request,
        expected: Answer,
        tally: &mut Tally,
    ) -> Result<Answer, Difference> {
        if let Some(of_a_reader) = request.of_a_reader() {
            self.compare_form(of_a_reader, expected, tally)?;
        }
        self.compare_form(request, expected, tally)
    }

    fn compare_form(
        &self,
        request: Request,
        expected: Answer,
        tally: &mut Tally,
    ) -> Result<Answer, Difference> {
        tally.count(request.name(), expected.number);
        let observed = answered(&self.input, request);
        if observed.agrees(&expected) {
            Ok(observed.answer)
        } else {
            Err(difference(self.bytes, request, expected, observed))
        }
    }
}

/// One call on an input as it lies, which is too long to be copied and shrunk.
///
/// # Errors
///
/// Where the library's answer is not the original's.
pub fn check_as_it_lies(
    input: &Input,
    request: Request,
    tally: &mut Tally,
) -> Result<(), Difference> {
    let bytes = input.bytes();
    let expected = oracle::answer(bytes, request);
    tally.count(request.call.name(), expected.number);
    let observed = library::answer(input, request);
    if observed.agrees(&expected) {
        return Ok(());
    }
    let case = Described { bytes, request };
    let said = both_sides("Rust", &expected, &observed);
    Err(Difference(format!("difference, not shrunk:\n{case}{said}")))
}

/// A reader on each side, moved by the same calls, each from where its own answers left it.
pub struct Lockstep<'a> {
    subject: &'a Subject<'a>,
    rust: Reader<'a>,
    library: Cursor,
}

impl<'a> Lockstep<'a> {
    /// # Errors
    ///
    /// Where the two sides don't start alike.
    pub fn new(subject: &'a Subject<'a>, tally: &mut Tally) -> Result<Self, Difference> {
        let start = subject.check(Request::bit_cursor(), tally)?;
        Ok(Self {
            subject,
            rust: Reader::new(subject.bytes),
            library: start.cursor(),
        })
    }

    #[must_use]
    pub fn remaining(&self) -> usize {
        self.rust.remaining()
    }

    /// One call on both readers; a window that it made comes back as a reader on each side.
    ///
    /// # Errors
    ///
    /// Where the library's answer is not the original's.
    pub fn call(
        &mut self,
        call: Call,
        argument: usize,
        tally: &mut Tally,
    ) -> Result<(Answer, Option<Self>), Difference> {
        let request = Request::new(call, self.library, argument);
        let (expected, window) = self.rust.call(request);
        let answer = self.subject.compare(request, expected, tally)?;
        self.library = answer.cursor();
        let window = window.map(|rust| Self {
            subject: self.subject,
            rust,
            library: answer.window_cursor(),
        });
        Ok((answer, window))
    }
}

/// The original's answer, or the model's where the original can't be brought.
fn expected(bytes: &[u8], request: Request) -> Answer {
    if request.cursor.is_forged(bytes.len()) {
        model::forged(request)
    } else {
        oracle::answer(bytes, request)
    }
}

/// The library's answer, or that of who plays its part.
fn answered(input: &Input, request: Request) -> Observed {
    match self_check::miscount() {
        None => library::answer(input, request),
        Some(miscount) => {
            let right = expected(input.bytes(), request);
            miscounts::answered(miscount, request, right)
        }
    }
}

fn observed(case: &Case) -> Observed {
    answered(&Input::new(&case.bytes), case.request)
}

/// Reports the smallest case of the same kind, forged or not, that differs on its own.
#[cold]
fn difference(bytes: &[u8], request: Request, answer: Answer, first: Observed) -> Difference {
    let is_forged = |case: &Case| case.request.cursor.is_forged(case.bytes.len());
    let case = Case {
        bytes: bytes.to_vec(),
        request,
    };
    let forged = is_forged(&case);
    let differs = |case: &Case| {
        is_forged(case) == forged && !observed(case).agrees(&expected(&case.bytes, case.request))
    };
    let source = if forged { "model" } else { "Rust" };
    if differs(&case) {
        let patience = self_check::patience();
        let case = shrink::smallest(patience, case, shrink::smaller_cases, differs);
        let answer = expected(&case.bytes, case.request);
        let said = both_sides(source, &answer, &observed(&case));
        Difference(format!("difference, shrunk:\n{}{said}", described(&case)))
    } else {
        let said = both_sides(source, &answer, &first);
        let heading = "difference after earlier calls only, the call alone agrees:";
        Difference(format!("{heading}\n{}{said}", described(&case)))
    }
}

fn described(case: &Case) -> Described<'_> {
    Described {
        bytes: &case.bytes,
        request: case.request,
    }
}

fn both_sides(source: &str, expected: &Answer, observed: &Observed) -> String {
    let beside = if observed.frame_intact {
        ""
    } else {
        "  library   wrote beside its answer\n"
    };
    let answer = observed.answer;
    format!("  {source:<8}  {expected}\n  library   {answer}\n{beside}")
}
