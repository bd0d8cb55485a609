//! What the recipes of a group reached, and how often.

use crate::report::Tally;
use differential::carrier::{
    BROKEN_CHAIN, BYTES_AFTER, DESTINATION_TOO_SHORT, HEADER_CUT, INVALID_RECORD, NO_PRIMARY,
    NO_SUCH_PLACE, NO_SYNC_WORD, NUMBERS, PADDING_NOT_ZERO, PADDING_TOO_LONG, RESERVED_NOT_ZERO,
    TOO_LONG, TRUNCATED, VERSION_NOT_ZERO,
};
use differential::case::{ACCEPTED, TOO_FEW_BITS, TOO_MANY_GROUPS, VALUE_TOO_LARGE};
use differential::recipe::{Chain, Link, Made, Ran, Record, BODY, DROP, HEAD, KEY, RECORD};
use std::collections::HashMap;
use std::ops::Range;

/// Where the carrier was after a run.
pub const IN_START: &str = "in-start";
pub const IN_FIRST: &str = "in-first";
pub const IN_SECOND: &str = "in-second";

/// The rarest answer of those that an edit of a run can get.
pub const RAREST_EDIT: &str = "each-edit";

/// The rarest reason for which a start is not one carrier, with edits that it refused.
pub const RAREST_START: &str = "each-start";

/// Edits whose buffer is just long enough, and such as lack a byte.
pub const JUST_ENOUGH: &str = "just-enough";
pub const ONE_BYTE_LESS: &str = "one-byte-less";

/// Runs in which a carrier came over a longer one, whose last bytes stay.
pub const OVER_A_LONGER: &str = "over-longer";

/// Runs with a refused edit right between two that are accepted.
pub const REFUSED_BETWEEN: &str = "refused-between";

/// Recipes with data in the head or the records.
pub const OVER_RECORDS: &str = "over-records";

/// Recipes with data of two edits that overlap.
pub const OVERLAPPING: &str = "overlapping";

/// Recipes with a record off the chain before its last one, and with one there that is 23.
pub const LEFT_OUT: &str = "left-out";
pub const FAULT_LEFT_OUT: &str = "fault-left-out";

/// Recipes whose count is larger than the file holds.
pub const COUNT_PAST_FILE: &str = "count-past-file";

/// Recipes of a thousand edits and more.
pub const THOUSANDS: &str = "thousands";

/// Recipes with data that end where 32 bits don't say it.
pub const PAST_32_BITS: &str = "past-32-bits";

/// Files that are 22 for a record which is 23 too.
pub const FAULT_IN_A_BREAK: &str = "22-over-23";

/// Files that are 23 for a record that leads to one outside of the file.
pub const FAULT_BEFORE_A_BREAK: &str = "23-before-22";

/// Files that are 23 for data alone that end where 32 bits don't say it.
pub const FAR_PAST_THE_END: &str = "23-past-32-bits";

/// The answers that an edit of each kind can get from one carrier.
const EDITS: [(u8, u32); 10] = [
    (BODY, ACCEPTED),
    (BODY, NO_SUCH_PLACE),
    (BODY, TOO_LONG),
    (BODY, DESTINATION_TOO_SHORT),
    (DROP, ACCEPTED),
    (DROP, NO_SUCH_PLACE),
    (DROP, DESTINATION_TOO_SHORT),
    (KEY, ACCEPTED),
    (KEY, TOO_LONG),
    (KEY, DESTINATION_TOO_SHORT),
];

/// What an edit of anything else is refused with; 4 and 5 are not among it.
const STARTS: [u32; 12] = [
    HEADER_CUT,
    TRUNCATED,
    NO_SYNC_WORD,
    TOO_FEW_BITS,
    TOO_MANY_GROUPS,
    VALUE_TOO_LARGE,
    VERSION_NOT_ZERO,
    RESERVED_NOT_ZERO,
    NO_PRIMARY,
    PADDING_TOO_LONG,
    PADDING_NOT_ZERO,
    BYTES_AFTER,
];

/// Longer chains are not looked through for what was left out.
const MOST_LOOKED_THROUGH: usize = 100;

pub struct Reached {
    marks: HashMap<&'static str, u64>,
    /// By kind and number.
    edits: [[u64; NUMBERS]; 4],
    starts: [u64; NUMBERS],
}

impl Reached {
    #[must_use]
    pub fn new() -> Self {
        Self {
            marks: HashMap::new(),
            edits: [[0; NUMBERS]; 4],
            starts: [0; NUMBERS],
        }
    }

    /// A file, and its run where it is a recipe.
    pub fn count(&mut self, file: &[u8], chain: &Chain, ran: Option<&Ran>) {
        match chain.refused {
            None => self.count_layout(file, &chain.links),
            Some((index, refusal)) => {
                if let Some(record) = Record::at(file, index) {
                    self.count_refused(file, &record, refusal.number);
                }
            }
        }
        if let Some(ran) = ran {
            self.count_run(&chain.links, ran);
        }
    }

    pub fn mark(&self, marks: &[&'static str], tally: &mut Tally) {
        for mark in marks {
            tally.mark_times(mark, self.times(mark));
        }
    }

    fn times(&self, mark: &str) -> u64 {
        match mark {
            RAREST_EDIT => {
                let times = EDITS.map(|(kind, number)| self.edits[kind as usize][number as usize]);
                times.into_iter().min().unwrap_or(0)
            }
            RAREST_START => {
                let times = STARTS.map(|number| self.starts[number as usize]);
                times.into_iter().min().unwrap_or(0)
            }
            mark => self.marks.get(mark).copied().unwrap_or(0),
        }
    }

    fn raise_if(&mut self, is_reached: bool, mark: &'static str) {
        if is_reached {
            *self.marks.entry(mark).or_insert(0) += 1;
        }
    }

    /// A file that is refused for this record, which lies in it.
    fn count_refused(&mut self, file: &[u8], record: &Record, number: u32) {
        let is_fault = record.step(file).is_none();
        let leads_out = record.next > 0 && Record::at(file, record.next).is_none();
        self.raise_if(number == BROKEN_CHAIN && is_fault, FAULT_IN_A_BREAK);
        if number == INVALID_RECORD {
            let elsewhere = Record {
                offset: 0,
                ..*record
            };
            let is_far = elsewhere.step(file).is_some() && ends_past_32_bits(record);
            self.raise_if(leads_out, FAULT_BEFORE_A_BREAK);
            self.raise_if(is_far, FAR_PAST_THE_END);
        }
    }

    fn count_layout(&mut self, file: &[u8], links: &[Link]) {
        let last = links.last().map_or(0, |link| usize::from(link.index));
        let counted = usize::from(u16::from_be_bytes([file[2], file[3]]));
        let spans = spans(links);
        let far = links.iter().any(|link| ends_past_32_bits(&link.record));
        let first = spans.first().map_or(file.len(), |span| span.start);
        let mut pairs = spans.windows(2);
        self.raise_if(first < HEAD + RECORD * last, OVER_RECORDS);
        self.raise_if(pairs.any(|two| two[1].start < two[0].end), OVERLAPPING);
        self.raise_if(last > links.len(), LEFT_OUT);
        self.raise_if(
            last > links.len() && leaves_out_a_fault(file, links),
            FAULT_LEFT_OUT,
        );
        self.raise_if(file.len() < HEAD + RECORD * counted, COUNT_PAST_FILE);
        self.raise_if(links.len() >= 1_000, THOUSANDS);
        self.raise_if(far, PAST_32_BITS);
    }

    fn count_run(&mut self, links: &[Link], ran: &Ran) {
        for (link, made) in links.iter().zip(&ran.made) {
            self.count_edit(link.record.kind, made);
        }
        if let (Err(refusal), false) = (&ran.held.contents, ran.made.is_empty()) {
            self.starts[refusal.number as usize] += 1;
        }
        let holder = [IN_START, IN_FIRST, IN_SECOND][ran.holder()];
        self.raise_if(true, holder);
        self.raise_if(ran.shorter > 0, OVER_A_LONGER);
        let accepted: Vec<bool> = ran.made.iter().map(|made| made.left.is_ok()).collect();
        let mut threes = accepted.windows(3);
        let is_between = threes.any(|three| three == [true, false, true]);
        self.raise_if(is_between, REFUSED_BETWEEN);
    }

    fn count_edit(&mut self, kind: u8, made: &Made) {
        let needed = made.room as u64 + 1;
        let number = match made.left {
            Ok(left) => {
                self.raise_if(left == made.room, JUST_ENOUGH);
                ACCEPTED
            }
            Err(refusal) => {
                let is_short = refusal.number == DESTINATION_TOO_SHORT;
                self.raise_if(is_short && refusal.figures[0] == needed, ONE_BYTE_LESS);
                refusal.number
            }
        };
        self.edits[kind as usize][number as usize] += 1;
    }
}

/// The data that edits take, none of them empty, from the first byte on.
fn spans(links: &[Link]) -> Vec<Range<usize>> {
    let records = links.iter().map(|link| &link.record);
    let with_data = records.filter(|record| record.kind != DROP && record.length > 0);
    let mut spans: Vec<_> = with_data
        .map(|record| {
            let start = record.offset as usize;
            start..start + record.length as usize
        })
        .collect();
    spans.sort_unstable_by_key(|span| span.start);
    spans
}

fn ends_past_32_bits(record: &Record) -> bool {
    record.kind != DROP && record.offset.checked_add(record.length).is_none()
}

/// Whether a record that is 23 stands before the chain's last and is not on it.
fn leaves_out_a_fault(file: &[u8], links: &[Link]) -> bool {
    let last = links.last().map_or(0, |link| link.index);
    let is_on = |index: u16| links.iter().any(|link| link.index == index);
    let is_fault = |index: u16| {
        let record = Record::at(file, index);
        record.is_some_and(|record| record.step(file).is_none())
    };
    links.len() < MOST_LOOKED_THROUGH && (1..last).any(|index| !is_on(index) && is_fault(index))
}
