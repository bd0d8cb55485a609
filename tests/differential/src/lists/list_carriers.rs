//! Prints the fixed list of carriers with the original's readings for the replay program.

use differential::carrier::{A, B, ORIGINAL_ROW_WORDS, ORIGINAL_WORDS};
use differential::contents::Contents;
use differential::damage;
use differential::facts;
use differential::options::Options;
use differential::random::Random;
use differential::shapes::{
    self, Numbers, DURATIONS, GROUP_IDS, IDS, KEY_IDS, OFFSETS, PRIMARIES, SECONDARIES, SHAPES,
};
use differential::wrong;
use std::fmt::Write as _;
use std::process::ExitCode;

/// The carriers that the scope and docs/DIFFERENCES.md name.
const NAMED: [&[u8]; 19] = [
    &A,
    &B,
    &[0x58, 0x38, 0x00, 0x06, 0x00, 0x42, 0x00, 0x02, 0x52, 0x80],
    &[0x58, 0x38, 0x00, 0x04, 0x00, 0x12, 0x94, 0x00],
    &[0x58, 0x38, 0x00, 0x03, 0x00, 0x12, 0x94, 0x00],
    &[],
    &[0x58],
    &[0x58, 0x38],
    &[0x58, 0x38, 0x00],
    &[0x58, 0x38, 0x00, 0x00],
    &[0x58, 0x38, 0x00, 0x04, 0x00, 0x00],
    &[0x58, 0x38, 0x00, 0x03, 0x00, 0x10, 0x00],
    &[
        0x58, 0x38, 0x00, 0x0a, 0x00, 0x50, 0x01, 0x00, 0x10, 0x00, 0x20, 0x00, 0x20, 0x00,
    ],
    &[0x58, 0x38, 0x00, 0x05, 0x00, 0x42, 0x01, 0x00, 0x80],
    &[
        0x58, 0x38, 0x00, 0x0c, 0xff, 0xff, 0xff, 0xff, 0xff, 0xff, 0xff, 0xff, 0xff, 0xff, 0xff,
        0xff,
    ],
    &[
        0x58, 0x38, 0x00, 0x0b, 0x07, 0xff, 0xff, 0xff, 0xff, 0xff, 0xff, 0xff, 0xff, 0xff, 0xff,
    ],
    &[0x58, 0x38, 0x00, 0x03, 0x40, 0x10, 0x00],
    &[0x58, 0x38, 0x00, 0x03, 0x00, 0x60, 0x02],
    &[0x00; 7],
];

fn main() -> ExitCode {
    let options = match Options::parse(std::env::args().skip(1)) {
        Ok(options) => options,
        Err(problem) => {
            eprintln!("differential: {problem}");
            return ExitCode::from(2);
        }
    };
    let mut list = List {
        random: Random::new(options.seed),
        lines: String::new(),
    };
    for carrier in NAMED {
        list.add(carrier);
    }
    list.settings();
    list.edges();
    list.sizes();
    list.several();
    list.wrong();
    list.damaged();
    list.noise();
    print!("{}", list.lines);
    ExitCode::SUCCESS
}

struct List {
    random: Random,
    lines: String,
}

impl List {
    fn add(&mut self, carrier: &[u8]) {
        let (number, words, rows) = match facts::reading(carrier) {
            Ok(found) => {
                let words = found.summary()[..ORIGINAL_WORDS].to_vec();
                let rows = found.rows().map(|row| row[..ORIGINAL_ROW_WORDS].to_vec());
                (0, words, rows.collect())
            }
            Err(refusal) => {
                let words = refusal.reply().words[..ORIGINAL_WORDS].to_vec();
                (refusal.number, words, Vec::new())
            }
        };
        write!(self.lines, "{}", carrier.len()).expect("a string grows");
        let numbers = carrier
            .iter()
            .map(|&byte| u64::from(byte))
            .chain([u64::from(number)])
            .chain(words)
            .chain(rows.into_iter().flatten());
        for number in numbers {
            write!(self.lines, " {number}").expect("a string grows");
        }
        self.lines.push('\n');
    }

    fn add_contents(&mut self, contents: &Contents) {
        self.add(&contents.written().0);
    }

    /// A payload with a short body, and the shortest protection.
    fn small(&mut self) -> Contents {
        let mut contents = shapes::draw_contents(&mut self.random, 1, 2);
        contents.key_id = 0;
        contents.payloads[0].id = 1 + self.random.up_to(29) as u64;
        contents.primary.truncate(1);
        contents.secondary.clear();
        contents
    }

    /// Every combination of presences and one-bit values.
    fn settings(&mut self) {
        for shape in (0..SHAPES).chain(0..SHAPES) {
            let numbers = Numbers::draw(&mut self.random);
            let mut contents = self.small();
            contents.payloads[0].settings = shapes::settings(shape, &numbers);
            self.add_contents(&contents);
        }
    }

    fn edges(&mut self) {
        let mut all = Vec::new();
        for key_id in KEY_IDS {
            let mut contents = self.small();
            contents.key_id = key_id;
            all.push(contents);
        }
        for id in IDS {
            let mut contents = self.small();
            contents.payloads[0].id = id;
            all.push(contents);
        }
        for offset in OFFSETS {
            let mut contents = self.small();
            let numbers = Numbers {
                sample_offset: offset,
                ..Numbers::draw(&mut self.random)
            };
            contents.payloads[0].settings =
                shapes::settings(8 + 8 * (offset as usize % 2), &numbers);
            all.push(contents);
        }
        for duration in DURATIONS {
            let mut contents = self.small();
            contents.payloads[0].settings.duration = Some(duration);
            all.push(contents);
        }
        for group_id in GROUP_IDS {
            let mut contents = self.small();
            contents.payloads[0].settings.group_id = Some(group_id);
            all.push(contents);
        }
        for primary in PRIMARIES {
            for secondary in SECONDARIES {
                let mut contents = self.small();
                contents.primary = self.random.bytes(primary);
                contents.secondary = self.random.bytes(secondary);
                all.push(contents);
            }
        }
        for contents in all {
            self.add_contents(&contents);
        }
    }

    fn sizes(&mut self) {
        for size in (0..20).chain(254..=258) {
            let mut contents = self.small();
            contents.payloads[0].body = self.random.bytes(size);
            self.add_contents(&contents);
        }
    }

    /// None, or up to six, with bytes after the carrier one time in four.
    fn several(&mut self) {
        for _ in 0..160 {
            let payloads = self.random.up_to(3) * self.random.up_to(2);
            let contents = shapes::draw_contents(&mut self.random, payloads, 4);
            let (mut carrier, _) = contents.written();
            if self.random.one_in(4) {
                let after = self.random.up_to(4);
                carrier.extend(self.random.bytes(after));
            }
            self.add(&carrier);
        }
    }

    fn wrong(&mut self) {
        for _ in 0..10 {
            let contents = shapes::draw_contents(&mut self.random, 1, 3);
            for wrong in wrong::carriers(&contents, &mut self.random) {
                self.add(&wrong.carrier);
            }
            for wrong in wrong::sums_with_base(&contents, &mut self.random) {
                self.add(&wrong.carrier);
            }
        }
    }

    fn damaged(&mut self) {
        for _ in 0..2 {
            let (carrier, _) = self.small().written();
            for damaged in damage::small(&carrier, &mut self.random) {
                self.add(&damaged);
            }
        }
    }

    fn noise(&mut self) {
        for _ in 0..400 {
            let carrier = damage::random_container(&mut self.random, 60);
            self.add(&carrier);
        }
    }
}
