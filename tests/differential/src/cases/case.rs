//! One call with its arguments, and the answer in the library's own figures.

use std::fmt;

pub const ACCEPTED: u32 = 0;
pub const TOO_FEW_BITS: u32 = 3;
pub const WIDTH_TOO_LARGE: u32 = 4;
pub const INVALID_BOUNDS: u32 = 5;
pub const TOO_MANY_GROUPS: u32 = 6;
pub const VALUE_TOO_LARGE: u32 = 7;

/// The numbers of a bit call's answer, and of a field call's, which has its groups too.
pub const BIT_WORDS: usize = 6;
pub const FIELD_WORDS: usize = BIT_WORDS + 1;

/// The widest read.
pub const MAX_WIDTH: usize = 64;

/// The widest group of a variable field.
pub const MAX_FIELD_WIDTH: u8 = 63;

/// The exported calls; the discriminant of a bit call is its number in the list.
#[derive(Clone, Copy, Debug, Eq, PartialEq)]
pub enum Call {
    BitCursor = 0,
    BitsRemaining = 1,
    ReadBits = 2,
    ReadBit = 3,
    TakeBits = 4,
    ByteAlign = 5,
    VariableBits = 6,
}

impl Call {
    #[must_use]
    pub fn name(self) -> &'static str {
        match self {
            Self::BitCursor => "bit_cursor",
            Self::BitsRemaining => "bits_remaining",
            Self::ReadBits => "read_bits",
            Self::ReadBit => "read_bit",
            Self::TakeBits => "take_bits",
            Self::ByteAlign => "byte_align",
            Self::VariableBits => "variable_bits",
        }
    }

    /// Its name as a method of `BitReader`.
    ///
    /// # Panics
    ///
    /// On the variable field, which is none.
    #[must_use]
    pub fn method(self) -> &'static str {
        match self {
            Self::BitCursor => "BitReader::new",
            Self::BitsRemaining => "BitReader::bits_remaining",
            Self::ReadBits => "BitReader::read_bits",
            Self::ReadBit => "BitReader::read_bit",
            Self::TakeBits => "BitReader::take_bits",
            Self::ByteAlign => "BitReader::byte_align",
            Self::VariableBits => unreachable!("no method of a reader"),
        }
    }
}

/// The two forms that the library has of the bit calls.
#[derive(Clone, Copy, Debug, Eq, PartialEq)]
pub enum Form {
    /// The exported calls, at a cursor by value.
    Cursor,
    /// `BitReader`'s methods, on a reader that stands at the cursor.
    Reader,
}

/// A position and an end, in bits from the slice's first bit.
#[derive(Clone, Copy, Debug, Default, Eq, PartialEq)]
pub struct Cursor {
    pub position: usize,
    pub end: usize,
}

impl Cursor {
    #[must_use]
    pub fn new(position: usize, end: usize) -> Self {
        Self { position, end }
    }

    /// No reader of the original ever has a cursor that this refuses.
    #[must_use]
    pub fn is_forged(self, length: usize) -> bool {
        self.position > self.end || self.end > 8 * length
    }
}

/// A call and its arguments beside the slice; an argument that a call lacks is 0.
#[derive(Clone, Copy, Debug, Eq, PartialEq)]
pub struct Request {
    pub call: Call,
    pub cursor: Cursor,
    /// The width of `read_bits` and `variable_bits`, or the count of `take_bits`.
    pub argument: usize,
    /// The groups that `variable_bits` allows.
    pub limit: u8,
    pub form: Form,
}

impl Request {
    #[must_use]
    pub fn new(call: Call, cursor: Cursor, argument: usize) -> Self {
        Self {
            call,
            cursor,
            argument,
            limit: 0,
            form: Form::Cursor,
        }
    }

    /// The same call of a reader, which has all but the variable field.
    #[must_use]
    pub fn of_a_reader(self) -> Option<Self> {
        let form = Form::Reader;
        (self.call != Call::VariableBits).then_some(Self { form, ..self })
    }

    #[must_use]
    pub fn name(&self) -> &'static str {
        match self.form {
            Form::Cursor => self.call.name(),
            Form::Reader => self.call.method(),
        }
    }

    /// A variable field of groups of `width` bits each.
    #[must_use]
    pub fn field(cursor: Cursor, width: u8, limit: u8) -> Self {
        Self {
            limit,
            ..Self::new(Call::VariableBits, cursor, usize::from(width))
        }
    }

    /// The argument where it is a width.
    ///
    /// # Panics
    ///
    /// On a width above 255, which neither side's parameter can hold.
    #[must_use]
    pub fn width(&self) -> u8 {
        u8::try_from(self.argument).expect("a width is a byte")
    }

    /// The call that makes a cursor from a slice alone.
    #[must_use]
    pub fn bit_cursor() -> Self {
        Self::new(Call::BitCursor, Cursor::default(), 0)
    }
}

/// What a call returns and the numbers that it writes; of a bit call the last one is 0.
#[derive(Clone, Copy, Debug, Eq, PartialEq)]
pub struct Answer {
    pub number: u32,
    pub words: [u64; FIELD_WORDS],
}

impl Answer {
    #[must_use]
    pub fn accepted(value: u64, after: Cursor) -> Self {
        Self::with_window(value, after, Cursor::default())
    }

    /// A field of so many groups.
    #[must_use]
    pub fn field(value: u64, groups: u64, after: Cursor) -> Self {
        let mut answer = Self::accepted(value, after);
        answer.words[BIT_WORDS] = groups;
        answer
    }

    #[must_use]
    pub fn window(after: Cursor, window: Cursor) -> Self {
        Self::with_window(0, after, window)
    }

    #[must_use]
    pub fn too_few_bits(requested: usize, remaining: usize, cursor: Cursor) -> Self {
        Self::refused(TOO_FEW_BITS, [requested, remaining], cursor)
    }

    #[must_use]
    pub fn width_too_large(width: usize, cursor: Cursor) -> Self {
        Self::refused(WIDTH_TOO_LARGE, [width, 0], cursor)
    }

    #[must_use]
    pub fn invalid_bounds(width: u8, limit: u8, cursor: Cursor) -> Self {
        Self::refused(INVALID_BOUNDS, [width, limit].map(usize::from), cursor)
    }

    #[must_use]
    pub fn too_many_groups(width: u8, limit: u8, after: Cursor) -> Self {
        Self::refused(TOO_MANY_GROUPS, [width, limit].map(usize::from), after)
    }

    #[must_use]
    pub fn value_too_large(after: Cursor) -> Self {
        Self::refused(VALUE_TOO_LARGE, [0, 0], after)
    }

    /// The cursor after the call.
    #[must_use]
    pub fn cursor(&self) -> Cursor {
        Cursor::new(self.words[2] as usize, self.words[3] as usize)
    }

    /// The window that `take_bits` made.
    #[must_use]
    pub fn window_cursor(&self) -> Cursor {
        Cursor::new(self.words[4] as usize, self.words[5] as usize)
    }

    fn with_window(value: u64, after: Cursor, window: Cursor) -> Self {
        let cursors = [after.position, after.end, window.position, window.end];
        let [position, end, from, to] = cursors.map(|bit| bit as u64);
        Self {
            number: ACCEPTED,
            words: [value, 0, position, end, from, to, 0],
        }
    }

    fn refused(number: u32, figures: [usize; 2], cursor: Cursor) -> Self {
        let [first, second] = figures.map(|figure| figure as u64);
        Self {
            number,
            words: [
                first,
                second,
                cursor.position as u64,
                cursor.end as u64,
                0,
                0,
                0,
            ],
        }
    }
}

impl fmt::Display for Answer {
    fn fmt(&self, formatter: &mut fmt::Formatter<'_>) -> fmt::Result {
        let [first, second, position, end, from, to, groups] = self.words;
        write!(
            formatter,
            "number {}, figures {first} {second}, cursor {position} {end}, window {from} {to}, \
             groups {groups}",
            self.number
        )
    }
}

/// A request on a slice, as it stands in a report.
#[derive(Clone, Copy)]
pub struct Described<'a> {
    pub bytes: &'a [u8],
    pub request: Request,
}

impl fmt::Display for Described<'_> {
    fn fmt(&self, formatter: &mut fmt::Formatter<'_>) -> fmt::Result {
        let Request {
            call,
            cursor,
            argument,
            limit,
            form,
        } = self.request;
        match form {
            Form::Cursor => writeln!(formatter, "  call      emdf_{}", call.name())?,
            Form::Reader => writeln!(formatter, "  call      {}", call.method())?,
        }
        write_bytes(formatter, self.bytes)?;
        writeln!(formatter, "  position  {}", cursor.position)?;
        writeln!(formatter, "  end       {}", cursor.end)?;
        writeln!(formatter, "  argument  {argument}")?;
        if call == Call::VariableBits {
            writeln!(formatter, "  limit     {limit}")?;
        }
        Ok(())
    }
}

/// A report's line with the bytes of a case.
///
/// # Errors
///
/// Where the formatter takes no more.
pub fn write_bytes(formatter: &mut fmt::Formatter<'_>, bytes: &[u8]) -> fmt::Result {
    write_slice(formatter, "bytes", bytes)
}

/// A report's line with a slice of this name.
///
/// # Errors
///
/// Where the formatter takes no more.
pub fn write_slice(formatter: &mut fmt::Formatter<'_>, name: &str, bytes: &[u8]) -> fmt::Result {
    write!(formatter, "  {name:<9} {} in all:", bytes.len())?;
    for run in bytes.chunk_by(|one, next| one == next) {
        write_run(formatter, run)?;
    }
    writeln!(formatter)
}

/// Equal bytes, each on its own unless they are many.
fn write_run(formatter: &mut fmt::Formatter<'_>, run: &[u8]) -> fmt::Result {
    if run.len() > 16 {
        return write!(formatter, " {:02x}*{}", run[0], run.len());
    }
    run.iter()
        .try_for_each(|byte| write!(formatter, " {byte:02x}"))
}
