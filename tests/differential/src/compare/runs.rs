//! The groups for numbers and runs of bits, put into a buffer.

use crate::guard::Place;
use crate::lent::Lent;
use crate::report::{Difference, Group, Tally};
use crate::trials;
use differential::case::ACCEPTED;
use differential::options::Length;
use differential::random::Random;
use differential::run;

const COPY: &str = "copy_bits";
const PUT: &str = "put_number";

/// What a call counts as where it puts nothing; it has no number of its own.
const NOTHING_PUT: u32 = 1;

const STRAIGHT: &str = "whole octets at equal phases";
const SHIFTED: &str = "whole octets at other phases";

pub const GROUPS: [Group; 3] = [
    Group {
        name: "every run between buffers of up to 4 bytes",
        least: 400,
        outcomes: &[(COPY, ACCEPTED), (COPY, NOTHING_PUT)],
        marks: &[STRAIGHT, SHIFTED],
        run: small_runs,
    },
    Group {
        name: "runs between longer buffers",
        least: 10_000,
        outcomes: &[(COPY, ACCEPTED), (COPY, NOTHING_PUT)],
        marks: &[STRAIGHT, SHIFTED],
        run: long_runs,
    },
    Group {
        name: "numbers put",
        least: 10_000,
        outcomes: &[(PUT, ACCEPTED), (PUT, NOTHING_PUT)],
        marks: &[],
        run: numbers,
    },
];

/// The most bytes of a small buffer, and the most bits that are asked for there.
const SMALL: usize = 4;
const SMALL_BITS: usize = 8 * SMALL + 2;

/// A run of the source's bits.
#[derive(Clone, Copy)]
struct Run {
    room: usize,
    at: usize,
    from: usize,
    bits: usize,
}

fn small_runs(tally: &mut Tally, random: &mut Random, length: Length) -> Result<(), Difference> {
    let mut runner = Runner::new();
    for _ in 0..length.rounds(1, 10) {
        for size in 0..=SMALL {
            runner.source.put(&random.bytes(size));
            for room in 0..=SMALL {
                for at in 0..=SMALL_BITS {
                    for from in 0..=SMALL_BITS {
                        runner.check_all(room, at, from, tally)?;
                    }
                }
            }
        }
    }
    Ok(())
}

fn long_runs(tally: &mut Tally, random: &mut Random, length: Length) -> Result<(), Difference> {
    let mut runner = Runner::new();
    for _ in 0..length.rounds(20_000, 400_000) {
        let most = random.pick(&[20, 100, 1_000, 5_000]);
        let size = random.up_to(most);
        runner.source.put(&random.bytes(size));
        for _ in 0..4 {
            let run = draw(size, most, random);
            runner.check(run, tally)?;
        }
    }
    Ok(())
}

/// One that fits, with all the bits there are room for or fewer, or one that is a bit too long, or far too long.
fn draw(size: usize, most: usize, random: &mut Random) -> Run {
    let room = random.up_to(most);
    let at = random.up_to(8 * room);
    let mut from = random.up_to(8 * size);
    if random.one_in(2) {
        from = from / 8 * 8 + at % 8;
    }
    let left = (8 * room - at).min((8 * size).saturating_sub(from));
    let bits = match random.up_to(7) {
        0 => left + 1,
        1 => usize::MAX - random.up_to(8 * most),
        2 => random.up_to(left),
        _ => left,
    };
    let far = random.one_in(20);
    let at = if far {
        usize::MAX - random.up_to(left)
    } else {
        at
    };
    Run {
        room,
        at,
        from,
        bits,
    }
}

fn numbers(tally: &mut Tally, random: &mut Random, length: Length) -> Result<(), Difference> {
    let mut lent = Lent::new();
    for _ in 0..length.rounds(2, 40) {
        for room in 0..=10 {
            for at in 0..=8 * room + 1 {
                for width in 0..=66 {
                    check_number(&mut lent, room, at, width, random.word(), tally)?;
                }
                let wide = usize::MAX - random.up_to(9);
                check_number(&mut lent, room, at, wide, 0, tally)?;
                check_number(&mut lent, room, wide, random.up_to(64), 0, tally)?;
            }
        }
    }
    Ok(())
}

fn check_number(
    lent: &mut Lent,
    room: usize,
    at: usize,
    width: usize,
    value: u64,
    tally: &mut Tally,
) -> Result<(), Difference> {
    let memory = (lent.lend(room), room);
    let mut expected = lent.lent_before().to_vec();
    let fits = run::copy_number(&mut expected, at, width, value);
    tally.count(PUT, outcome(fits));
    // SAFETY: the memory is lent with its length.
    let answer = unsafe { trials::put(memory, at, width, value) };
    let agrees = answer == u32::from(fits) && lent.holds(&expected);
    lent.restore_all();
    if agrees {
        return Ok(());
    }
    let asked = format!("put_number of {value:#x}, {width} bits, at {at} of {room} bytes");
    Err(difference(&asked, fits, answer))
}

/// A source in guarded memory, and memory that runs are put into.
struct Runner {
    source: Place,
    lent: Lent,
    expected: Vec<u8>,
}

impl Runner {
    fn new() -> Self {
        Self {
            source: Place::new(),
            lent: Lent::new(),
            expected: Vec::new(),
        }
    }

    /// A run of each length from one place to another.
    fn check_all(
        &mut self,
        room: usize,
        at: usize,
        from: usize,
        tally: &mut Tally,
    ) -> Result<(), Difference> {
        for bits in 0..=SMALL_BITS {
            let run = Run {
                room,
                at,
                from,
                bits,
            };
            self.check(run, tally)?;
        }
        Ok(())
    }

    fn check(&mut self, run: Run, tally: &mut Tally) -> Result<(), Difference> {
        let Run {
            room,
            at,
            from,
            bits,
        } = run;
        let source = self.source.bytes();
        let memory = (self.lent.lend(room), room);
        self.expected.clear();
        self.expected.extend_from_slice(self.lent.lent_before());
        let fits = run::copy(&mut self.expected, at, source, from, bits);
        tally.count(COPY, outcome(fits));
        if fits && bits >= 16 {
            tally.mark(if at % 8 == from % 8 {
                STRAIGHT
            } else {
                SHIFTED
            });
        }
        // SAFETY: the memory is lent with its length.
        let answer = unsafe { trials::copy(memory, at, source, from, bits) };
        let agrees = answer == u32::from(fits) && self.lent.holds(&self.expected);
        self.lent.restore_all();
        if agrees {
            return Ok(());
        }
        let size = source.len();
        let asked =
            format!("copy_bits of {bits} bits at {from} of {size} bytes, to {at} of {room} bytes");
        Err(difference(&asked, fits, answer))
    }
}

fn outcome(fits: bool) -> u32 {
    if fits {
        ACCEPTED
    } else {
        NOTHING_PUT
    }
}

fn difference(asked: &str, fits: bool, answer: u32) -> Difference {
    let said = format!("  plain form  put: {fits}\n  library     put: {answer}\n");
    Difference(format!(
        "difference in the answer or in the bytes left:\n  {asked}\n{said}"
    ))
}
