//! A recipe of edits on file, by the scope: its form, the list that it stands for, and the plain run of a list.

use crate::carrier::{
    Reading, Refusal, Reply, BROKEN_CHAIN, BYTES_AFTER, CHECK_WORDS, INVALID_RECORD, RUN_WORDS,
};
use crate::case::write_slice;
use crate::contents::Contents;
use crate::plain::{self, Step};
use std::fmt;

/// The bytes before the records: the first index and the count.
pub const HEAD: usize = 4;

/// The bytes of a record; the first one has index 1.
pub const RECORD: usize = 16;

/// The bytes of a key's data.
pub const KEY_LENGTH: usize = 8;

/// The kinds that are listed.
pub const BODY: u8 = 1;
pub const DROP: u8 = 2;
pub const KEY: u8 = 3;

/// Neither has figures.
const BROKEN: Refusal = Refusal {
    number: BROKEN_CHAIN,
    figures: [0, 0],
};
const INVALID: Refusal = Refusal {
    number: INVALID_RECORD,
    figures: [0, 0],
};

/// A record as it stands in a file, in order or not.
#[derive(Clone, Copy, Debug, Eq, PartialEq)]
pub struct Record {
    pub next: u16,
    pub kind: u8,
    pub zero: u8,
    pub place: u32,
    pub offset: u32,
    pub length: u32,
}

impl Record {
    #[must_use]
    pub fn bytes(&self) -> [u8; RECORD] {
        let mut bytes = [0; RECORD];
        bytes[..2].copy_from_slice(&self.next.to_be_bytes());
        bytes[2] = self.kind;
        bytes[3] = self.zero;
        bytes[4..8].copy_from_slice(&self.place.to_be_bytes());
        bytes[8..12].copy_from_slice(&self.offset.to_be_bytes());
        bytes[12..].copy_from_slice(&self.length.to_be_bytes());
        bytes
    }

    /// The record with this index, where all of it lies in the file; none has index 0.
    #[must_use]
    pub fn at(file: &[u8], index: u16) -> Option<Self> {
        let start = HEAD + RECORD * usize::from(index).checked_sub(1)?;
        let bytes = file.get(start..start + RECORD)?;
        let (words, _) = bytes.as_chunks();
        let number = |word: usize| u32::from_be_bytes(words[word]);
        Some(Self {
            next: u16::from_be_bytes([bytes[0], bytes[1]]),
            kind: bytes[2],
            zero: bytes[3],
            place: number(1),
            offset: number(2),
            length: number(3),
        })
    }

    /// The edit that it stands for; none where 23 is answered no.
    #[must_use]
    pub fn step(&self, file: &[u8]) -> Option<Step> {
        if self.zero != 0 {
            return None;
        }
        let place = self.place as usize;
        match self.kind {
            BODY => {
                let body = self.data(file)?.to_vec();
                Some(Step::Body { place, body })
            }
            DROP => Some(Step::Drop { place }),
            KEY => {
                let key_id = self.data(file)?.try_into().ok()?;
                let key_id = u64::from_be_bytes(key_id);
                Some(Step::Key { key_id })
            }
            _ => None,
        }
    }

    /// The bytes that it names, where they lie in the file.
    fn data<'a>(&self, file: &'a [u8]) -> Option<&'a [u8]> {
        let start = self.offset as usize;
        let end = start + self.length as usize;
        file.get(start..end)
    }
}

/// A file to be written: the head, records from the first on, and data at their offsets.
pub struct File {
    pub first: u16,
    pub count: u16,
    pub records: Vec<Record>,
    pub data: Vec<(usize, Vec<u8>)>,
}

impl File {
    /// As long as its records and data want it; what lies between them is 0.
    #[must_use]
    pub fn bytes(&self) -> Vec<u8> {
        let mut bytes: Vec<u8> = [self.first, self.count]
            .into_iter()
            .flat_map(u16::to_be_bytes)
            .collect();
        bytes.extend(self.records.iter().flat_map(Record::bytes));
        for (offset, data) in &self.data {
            let end = offset + data.len();
            bytes.resize(bytes.len().max(end), 0);
            bytes[*offset..end].copy_from_slice(data);
        }
        bytes
    }
}

/// The kind of a step, where a record can stand for it.
#[must_use]
pub fn kind(step: &Step) -> Option<u8> {
    match step {
        Step::Body { .. } => Some(BODY),
        Step::Drop { .. } => Some(DROP),
        Step::Key { .. } => Some(KEY),
        _ => None,
    }
}

/// What a record of a step has as its data.
#[must_use]
pub fn data(step: &Step) -> Vec<u8> {
    match step {
        Step::Body { body, .. } => body.clone(),
        Step::Key { key_id } => key_id.to_be_bytes().to_vec(),
        _ => Vec::new(),
    }
}

/// The shortest file for a list: a record an edit, in order, and then their data.
///
/// None where an edit or a number doesn't fit into a record.
#[must_use]
pub fn written(edits: &[Step]) -> Option<Vec<u8>> {
    let count = u16::try_from(edits.len()).ok()?;
    let mut file = File {
        first: count.min(1),
        count,
        records: Vec::new(),
        data: Vec::new(),
    };
    let mut offset = HEAD + RECORD * edits.len();
    for (step, index) in edits.iter().zip(1..) {
        let data = data(step);
        file.records.push(Record {
            next: if index < count { index + 1 } else { 0 },
            kind: kind(step)?,
            zero: 0,
            place: match step.place(0) {
                Some((place, _)) => u32::try_from(place).ok()?,
                None => 0,
            },
            offset: u32::try_from(offset).ok()?,
            length: u32::try_from(data.len()).ok()?,
        });
        let end = offset + data.len();
        file.data.push((offset, data));
        offset = end;
    }
    Some(file.bytes())
}

/// A record on the chain, and the edit that it stands for.
#[derive(Clone, Debug)]
pub struct Link {
    pub index: u16,
    pub record: Record,
    pub step: Step,
}

/// A file's chain, as far as it is in order.
pub struct Chain {
    pub links: Vec<Link>,
    /// The index whose record is asked the first question that is answered no, 0 for the head.
    pub refused: Option<(u16, Refusal)>,
}

impl Chain {
    #[must_use]
    pub fn of(file: &[u8]) -> Self {
        let mut links = Vec::new();
        let refused = walk(file, &mut links).err();
        Self { links, refused }
    }

    /// The list that the file stands for.
    ///
    /// # Errors
    ///
    /// With the first refusal along the chain.
    pub fn edits(&self) -> Result<Vec<Step>, Refusal> {
        match self.refused {
            Some((_, refusal)) => Err(refusal),
            None => Ok(self.links.iter().map(|link| link.step.clone()).collect()),
        }
    }
}

/// The list that a file stands for.
///
/// # Errors
///
/// With the first refusal along the chain.
pub fn edits(file: &[u8]) -> Result<Vec<Step>, Refusal> {
    Chain::of(file).edits()
}

fn walk(file: &[u8], links: &mut Vec<Link>) -> Result<(), (u16, Refusal)> {
    let head = file.get(..HEAD).ok_or((0, BROKEN))?;
    let [first, count] = [0, 2].map(|at| u16::from_be_bytes([head[at], head[at + 1]]));
    // The head's index is asked what that of a record 0 would be.
    let mut next = link(0, first, count)?;
    while let Some(index) = next {
        let record = Record::at(file, index).ok_or((index, BROKEN))?;
        next = link(index, record.next, count)?;
        let step = record.step(file).ok_or((index, INVALID))?;
        links.push(Link {
            index,
            record,
            step,
        });
    }
    Ok(())
}

/// Where an index leads from a record, if it leads on.
fn link(own: u16, next: u16, count: u16) -> Result<Option<u16>, (u16, Refusal)> {
    match next {
        0 => Ok(None),
        _ if own < next && next <= count => Ok(Some(next)),
        _ => Err((own, BROKEN)),
    }
}

/// What an edit of a run is made on: a slice of some length, and its contents where it is one carrier.
#[derive(Clone)]
pub struct Held {
    pub length: usize,
    /// Else what each edit of it is refused with.
    pub contents: Result<Contents, Refusal>,
}

impl Held {
    /// A slice that is read so.
    #[must_use]
    pub fn of(source: &[u8], reading: &Reading) -> Self {
        let contents = match reading {
            Err(refusal) => Err(*refusal),
            Ok(found) if found.consumed < source.len() => Err(Refusal::new(BYTES_AFTER, [0, 0])),
            Ok(found) => Ok(found.contents.clone()),
        };
        let length = source.len();
        Self { length, contents }
    }

    /// The carrier of these contents.
    #[must_use]
    pub fn with(contents: Contents) -> Self {
        Self {
            length: plain::length(&contents),
            contents: Ok(contents),
        }
    }
}

/// An edit of a run: the length of its destination, and the length of what it left.
#[derive(Clone, Copy, Debug)]
pub struct Made {
    pub room: usize,
    pub left: Result<usize, Refusal>,
}

/// A run, as far as it has come.
pub struct Ran {
    /// The start, or what the last accepted edit left.
    pub held: Held,
    accepted: usize,
    pub made: Vec<Made>,
    /// What was written to the first bytes of each buffer; all others stay.
    pub written: [Vec<u8>; 2],
    /// How often a carrier came over a longer one, whose last bytes stay.
    pub shorter: usize,
}

/// A list of edits over two buffers of these lengths.
#[must_use]
pub fn run(start: Held, edits: &[Step], rooms: [usize; 2]) -> Ran {
    let mut ran = Ran {
        held: start,
        accepted: 0,
        made: Vec::new(),
        written: [Vec::new(), Vec::new()],
        shorter: 0,
    };
    for step in edits {
        ran.go_on(step, rooms);
    }
    ran
}

impl Ran {
    /// What `emdf_run_recipe` answers.
    #[must_use]
    pub fn reply(&self) -> Reply {
        let refused = self.made.len() - self.accepted;
        Reply::accepted(&[self.holder(), self.held.length, refused].map(|number| number as u64))
    }

    /// 0 for the start, 1 for the first buffer, 2 for the second.
    #[must_use]
    pub fn holder(&self) -> usize {
        match self.accepted {
            0 => 0,
            accepted => 2 - accepted % 2,
        }
    }

    /// The buffers are aimed at by turns as edits are accepted, from the first on.
    #[must_use]
    pub fn aim(&self) -> usize {
        self.accepted % 2
    }

    fn go_on(&mut self, step: &Step, rooms: [usize; 2]) {
        let aim = self.aim();
        let room = rooms[aim];
        let contents = self.held.contents.as_ref();
        let after = match contents {
            Ok(contents) => step.on(contents, room),
            Err(refusal) => Err(*refusal),
        };
        let left = match &after {
            Ok(after) => Ok(plain::length(after)),
            Err(refusal) => Err(*refusal),
        };
        self.made.push(Made { room, left });
        if let Ok(after) = after {
            self.write(aim, &after.written().0);
            self.held = Held::with(after);
            self.accepted += 1;
        }
    }

    fn write(&mut self, aim: usize, carrier: &[u8]) {
        let written = &mut self.written[aim];
        if carrier.len() < written.len() {
            self.shorter += 1;
        } else {
            written.resize(carrier.len(), 0);
        }
        written[..carrier.len()].copy_from_slice(carrier);
    }
}

/// What `emdf_check_recipe` answers for a list.
#[must_use]
pub fn checked(edits: &Result<Vec<Step>, Refusal>) -> Reply {
    match edits {
        Ok(edits) => Reply::accepted(&[edits.len() as u64]),
        Err(refusal) => refusal.reply(),
    }
}

/// One of the two calls on a recipe.
#[derive(Clone, Copy)]
pub struct Asked<'a> {
    pub file: &'a [u8],
    /// The source and the lengths of the buffers, where it is to be run.
    pub run: Option<(&'a [u8], [usize; 2])>,
}

impl Asked<'_> {
    #[must_use]
    pub fn name(&self) -> &'static str {
        match self.run {
            None => "check_recipe",
            Some(_) => "run_recipe",
        }
    }

    /// How many numbers its answer has.
    #[must_use]
    pub fn words(&self) -> usize {
        match self.run {
            None => CHECK_WORDS,
            Some(_) => RUN_WORDS,
        }
    }

    /// The lengths of the buffers that are lent.
    #[must_use]
    pub fn rooms(&self) -> [usize; 2] {
        self.run.map_or([0, 0], |(_, rooms)| rooms)
    }
}

/// The call, as it stands in a report.
impl fmt::Display for Asked<'_> {
    fn fmt(&self, formatter: &mut fmt::Formatter<'_>) -> fmt::Result {
        writeln!(formatter, "  call      emdf_{}", self.name())?;
        if let Some((source, _)) = self.run {
            write_slice(formatter, "source", source)?;
        }
        write_slice(formatter, "recipe", self.file)?;
        match self.run {
            None => Ok(()),
            Some((_, rooms)) => write_rooms(formatter, rooms),
        }
    }
}

/// A report's lines with the lengths of the two buffers.
///
/// # Errors
///
/// Where the formatter takes no more.
pub fn write_rooms(formatter: &mut fmt::Formatter<'_>, rooms: [usize; 2]) -> fmt::Result {
    let [first, second] = rooms;
    writeln!(formatter, "  first     {first} bytes")?;
    writeln!(formatter, "  second    {second} bytes")
}
