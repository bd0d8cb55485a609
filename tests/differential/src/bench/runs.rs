//! Edits that copy octets, beside the same edits with the plain form of a run, and a copy of the carrier.

use crate::calls::{self, Call};
use differential::case::ACCEPTED;
use differential::contents::{Contents, Payload, Settings};
use differential::plain::{self, Step};
use differential::run;
use std::hint::black_box;
use std::ops::Range;

/// An edit of a carrier that has one body.
pub struct Copied {
    pub name: String,
    pub octets: usize,
    carrier: Vec<u8>,
    step: Step,
    result: Vec<u8>,
    /// The first bit that the body is taken from, and its bits in the result.
    from: usize,
    to: Range<usize>,
}

const SIZES: [usize; 4] = [16, 256, 4_096, 60_000];

/// A body handed in, and one kept, at equal phases and at others.
pub fn all() -> Vec<Copied> {
    SIZES.into_iter().flat_map(of_size).collect()
}

fn of_size(octets: usize) -> [Copied; 4] {
    let [on_a_byte, off] = [0, 5].map(|phase| with_body_at(octets, phase));
    let body = Step::Body {
        place: 0,
        body: vec![0xc3; octets],
    };
    let protection = Step::Protection {
        primary: vec![0x5a],
        secondary: Vec::new(),
    };
    // Four bits and a byte more.
    let longer = Settings {
        sample_offset: Some(0),
        ..off.payloads[0].settings
    };
    let settings = Step::Settings {
        place: 0,
        settings: plain::form(&longer),
    };
    [
        Copied::new("handed in", &on_a_byte, body.clone()),
        Copied::new("kept", &off, protection),
        Copied::new("handed in", &off, body),
        Copied::new("kept", &off, settings),
    ]
}

/// A carrier whose body starts so many bits after a byte's first: each of these fields can be longer by another number of bits.
fn with_body_at(octets: usize, phase: usize) -> Contents {
    for id in [1, 31] {
        for key_id in [0, 7] {
            for group_id in [None, Some(0)] {
                let contents = contents(octets, id, key_id, group_id);
                if contents.written().1.spans[0].body.start % 8 == phase {
                    return contents;
                }
            }
        }
    }
    unreachable!("every phase is among them")
}

fn contents(octets: usize, id: u64, key_id: u64, group_id: Option<u64>) -> Contents {
    let body = (0..octets).map(|place| (place * 151 + 0xc3) as u8);
    let settings = Settings {
        group_id,
        ..Settings::LEAST
    };
    let payload = Payload {
        id,
        settings,
        body: body.collect(),
    };
    Contents {
        key_id,
        payloads: vec![payload],
        primary: vec![0xa5],
        secondary: Vec::new(),
    }
}

impl Copied {
    fn new(how: &str, contents: &Contents, step: Step) -> Self {
        let octets = contents.payloads[0].body.len();
        let (carrier, found) = contents.written();
        let changed = step
            .on(contents, usize::MAX)
            .expect("an edit that is accepted");
        let (result, found_after) = changed.written();
        let to = found_after.spans[0].body.clone();
        let from = match step {
            Step::Body { .. } => 0,
            _ => found.spans[0].body.start,
        };
        let phases = if from % 8 == to.start % 8 {
            "equal"
        } else {
            "other"
        };
        Self {
            name: format!("{octets} octets {how}, {phases} phases"),
            octets,
            carrier,
            step,
            result,
            from,
            to,
        }
    }

    /// Whether octets stand at the same bits of a byte before and after.
    pub fn is_straight(&self) -> bool {
        self.from % 8 == self.to.start % 8
    }

    /// The copy, the reading, the edit, and the edit in its plain form.
    pub fn calls(&self) -> Vec<Call<'_>> {
        let mut calls = calls::copy_and_read(&self.carrier);
        let [mut destination, mut plain] = [(); 2].map(|()| vec![0; self.result.len()]);
        calls.push(Call::new("edit", move || {
            calls::library_edit(&self.carrier, &self.step, &mut destination)
        }));
        calls.push(Call::new("plain", move || self.plain_form(&mut plain)));
        calls
    }

    /// So that the same edit is measured in both forms.
    pub fn check(&self) {
        let name = &self.name;
        let mut destination = vec![0xff; self.result.len()];
        let number = calls::library_edit(&self.carrier, &self.step, &mut destination);
        assert_eq!(number, ACCEPTED, "{name} is refused");
        assert_eq!(destination, self.result, "{name}: another edit");
        destination.fill(0xff);
        self.plain_form(&mut destination);
        assert_eq!(destination, self.result, "{name}: another plain form");
    }

    /// The carrier is read; the body's bits are taken one by one from where they stand, the other ones from the result.
    fn plain_form(&self, destination: &mut [u8]) {
        calls::library_read(&self.carrier, &mut []);
        let destination = black_box(destination);
        let result = black_box(&self.result[..]);
        let Range { start, end } = self.to;
        let body = match &self.step {
            Step::Body { body, .. } => body,
            _ => &self.carrier,
        };
        run::copy(destination, 0, result, 0, start);
        run::copy(destination, start, black_box(body), self.from, end - start);
        run::copy(destination, end, result, end, 8 * result.len() - end);
    }
}
