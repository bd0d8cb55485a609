//! Prints the fixed list of the original's answers that the replay program goes through.

use differential::case::{Answer, Call, Cursor, Request, BIT_WORDS};
use differential::draw;
use differential::options::Options;
use differential::oracle;
use differential::random::Random;
use std::fmt::Write as _;
use std::process::ExitCode;

/// Slices of up to this many bytes, and a few of `LONG`.
const SIZE: usize = 20;
const LONG: usize = 64;

fn main() -> ExitCode {
    let options = match Options::parse(std::env::args().skip(1)) {
        Ok(options) => options,
        Err(problem) => {
            eprintln!("differential: {problem}");
            return ExitCode::from(2);
        }
    };
    let mut list = List {
        random: Random::new(options.seed),
        lines: String::new(),
    };
    list.cursors();
    list.widths();
    list.edges();
    list.refused_widths();
    list.two_bytes();
    list.windows();
    list.counts();
    list.mixed();
    print!("{}", list.lines);
    ExitCode::SUCCESS
}

struct List {
    random: Random,
    lines: String,
}

impl List {
    fn add(&mut self, bytes: &[u8], request: Request) -> Answer {
        let answer = oracle::answer(bytes, request);
        write!(self.lines, "{} {}", request.call as u8, bytes.len()).expect("a string grows");
        let Cursor { position, end } = request.cursor;
        let arguments = [position, end, request.argument].map(|number| number as u64);
        let numbers = bytes
            .iter()
            .map(|&byte| u64::from(byte))
            .chain(arguments)
            .chain([u64::from(answer.number)])
            .chain(answer.words[..BIT_WORDS].iter().copied());
        for number in numbers {
            write!(self.lines, " {number}").expect("a string grows");
        }
        self.lines.push('\n');
        answer
    }

    fn cursors(&mut self) {
        for size in (0..=SIZE).chain([LONG]) {
            let bytes = self.random.bytes(size);
            self.add(&bytes, Request::bit_cursor());
        }
    }

    /// Every width at every phase, with bits to spare.
    fn widths(&mut self) {
        for width in 0..=66 {
            for phase in 0..8 {
                let bytes = self.random.bytes(SIZE);
                let position = phase + 8 * self.random.up_to(9);
                let spare = self.random.up_to(8 * SIZE - position - width);
                let cursor = Cursor::new(position, position + width + spare);
                self.add(&bytes, Request::new(Call::ReadBits, cursor, width));
            }
        }
    }

    /// Every width with just enough bits, and with one bit less, also over ones alone.
    fn edges(&mut self) {
        for width in 1..=64 {
            let position = self.random.up_to(90);
            let drawn = self.random.bytes((position + width).div_ceil(8));
            let ones = vec![0xff; drawn.len()];
            for (bytes, end) in [
                (&drawn, position + width),
                (&drawn, position + width - 1),
                (&ones, position + width),
            ] {
                let cursor = Cursor::new(position, end);
                self.add(bytes, Request::new(Call::ReadBits, cursor, width));
            }
        }
    }

    /// Refused for the width, whether or not the bits are there.
    fn refused_widths(&mut self) {
        for width in (65..=72).chain([127, 128, 129, 254, 255]) {
            for size in [0, SIZE, LONG] {
                let bytes = self.random.bytes(size);
                let cursor = draw::cursor(&mut self.random, size);
                self.add(&bytes, Request::new(Call::ReadBits, cursor, width));
            }
        }
    }

    /// Every position and end in two bytes, for the calls without an argument.
    fn two_bytes(&mut self) {
        let bytes = self.random.bytes(2);
        for end in 0..=16 {
            for position in 0..=end {
                for call in [Call::BitsRemaining, Call::ReadBit, Call::ByteAlign] {
                    let cursor = Cursor::new(position, end);
                    self.add(&bytes, Request::new(call, cursor, 0));
                }
            }
        }
    }

    /// A window that is entered, aligned and read to its end, then its parent read on.
    fn windows(&mut self) {
        for _ in 0..100 {
            let size = 1 + self.random.up_to(SIZE - 1);
            let bytes = self.random.bytes(size);
            let cursor = draw::cursor(&mut self.random, size);
            let count = self.random.up_to(cursor.end - cursor.position);
            let taken = self.add(&bytes, Request::new(Call::TakeBits, cursor, count));
            let mut window = taken.window_cursor();
            let width = self.random.up_to(count.min(12));
            for (call, argument) in [
                (Call::ReadBits, width),
                (Call::ByteAlign, 0),
                (Call::BitsRemaining, 0),
                (Call::ReadBit, 0),
                (Call::TakeBits, count / 2),
                (Call::ByteAlign, 0),
            ] {
                let request = Request::new(call, window, argument);
                window = self.add(&bytes, request).cursor();
            }
            self.add(&bytes, Request::new(Call::ByteAlign, taken.cursor(), 0));
        }
    }

    /// Windows of no bits, of all that are left, of one more, and of far too many.
    fn counts(&mut self) {
        for size in (0..=SIZE).chain([LONG]) {
            let bytes = self.random.bytes(size);
            let cursor = draw::cursor(&mut self.random, size);
            let left = cursor.end - cursor.position;
            for count in [0, left, left + 1, 1 << 61, 1 << 63, usize::MAX] {
                self.add(&bytes, Request::new(Call::TakeBits, cursor, count));
            }
        }
    }

    fn mixed(&mut self) {
        for round in 0..800 {
            let size = if round % 50 == 0 {
                LONG
            } else {
                self.random.up_to(SIZE)
            };
            let bytes = self.random.bytes(size);
            let cursor = draw::cursor(&mut self.random, size);
            let left = cursor.end - cursor.position;
            let (call, argument) = draw::call(&mut self.random, left);
            self.add(&bytes, Request::new(call, cursor, argument));
        }
    }
}
