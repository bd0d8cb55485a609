//! Recipes to try: lists of edits, files of any layout for them, damaged files, and chains of every shape.

use crate::carrier::MOST_DECLARED;
use crate::contents::Contents;
use crate::plain::{self, Step};
use crate::random::Random;
use crate::recipe::{self, Chain, File, Record, BODY, DROP, HEAD, KEY, KEY_LENGTH, RECORD};
use crate::scripts::{shuffle, AMPLE};
use crate::steps;

/// The edits that a record can stand for, by their places in 01; a body has most ways to be refused.
const KINDS: [usize; 4] = [0, 0, 2, 4];

/// The most that a count and an index can say.
pub const MOST_RECORDS: usize = 65_535;

/// The farthest place that a record can name.
const FARTHEST: usize = u32::MAX as usize;

/// Up to so many edits, each drawn for what the last accepted one leaves.
pub fn draw_list(contents: &Contents, most: usize, random: &mut Random) -> Vec<Step> {
    let mut contents = contents.clone();
    let mut list = Vec::new();
    for _ in 0..random.up_to(most) {
        let step = draw_step(&contents, random);
        if let Ok(after) = step.on(&contents, AMPLE) {
            contents = after;
        }
        list.push(step);
    }
    list
}

/// An edit at a place that there is, or isn't, one time in six; some bodies are too long, or nearly.
pub fn draw_step(contents: &Contents, random: &mut Random) -> Step {
    let count = contents.payloads.len();
    let place = if random.one_in(6) {
        let past = random.pick(&[0, 1, 1 << 8, 1 << 16, 1 << 31, FARTHEST]);
        FARTHEST.min(count + past)
    } else {
        random.up_to(count.saturating_sub(1))
    };
    let kind = random.pick(&KINDS);
    let most_body = random.pick(&[0, 8, 40, 300]);
    match steps::draw(kind, place, most_body, random) {
        Step::Body { place, .. } if random.one_in(40) => Step::Body {
            place,
            body: vec![0x5a; MOST_DECLARED + random.up_to(600)],
        },
        Step::Body { place, .. } if random.one_in(400) => Step::Body {
            place,
            body: vec![0xa5; MOST_DECLARED - random.up_to(1_000)],
        },
        step => step,
    }
}

/// The lengths of two buffers: none, ample ones, any, or around what an edit of the list needs there.
pub fn draw_rooms(contents: &Contents, list: &[Step], random: &mut Random) -> [usize; 2] {
    let mut needed = [Vec::new(), Vec::new()];
    let mut contents = contents.clone();
    let mut aim = 0;
    for step in list {
        if let Ok(after) = step.on(&contents, AMPLE) {
            needed[aim].push(plain::length(&after));
            contents = after;
            aim = 1 - aim;
        }
    }
    needed.map(|needed| draw_room(&needed, random))
}

fn draw_room(needed: &[usize], random: &mut Random) -> usize {
    let most = needed.iter().copied().max().unwrap_or(0);
    let one = match needed {
        [] => 0,
        needed => random.pick(needed),
    };
    match random.up_to(15) {
        0 => 0,
        1 => random.up_to(600),
        2 => AMPLE + random.up_to(1),
        3 | 4 => one,
        5 | 6 => one.saturating_sub(1),
        7 | 8 => most,
        9 => most.saturating_sub(1),
        10 => random.up_to(most),
        _ => most + random.up_to(50),
    }
}

/// A file for a list, laid out by chance: records off the chain, a count that is larger than it
/// need be, data in any order, shared and with bytes between them, and bytes after all.
///
/// # Panics
///
/// On an edit that no record can stand for.
pub fn draw_file(list: &[Step], random: &mut Random) -> Vec<u8> {
    let indices = draw_indices(list.len(), random);
    let last = indices.last().copied().unwrap_or(0);
    let held = last + random.pick(&[0, 0, 1, 2]);
    let mut records: Vec<Record> = (0..held).map(|_| draw_unused(random)).collect();
    let start = HEAD + RECORD * held;
    let (offsets, mut data) = draw_data(list, random);
    let nexts = indices.iter().skip(1).chain([&0]);
    for (place, (index, next)) in indices.iter().zip(nexts).enumerate() {
        let offset = start + offsets[place];
        records[index - 1] = draw_record(&list[place], *next, offset, random);
    }
    if random.one_in(3) {
        let more = random.up_to(20);
        data.extend(random.bytes(more));
    }
    let file = File {
        first: indices.first().copied().unwrap_or(0) as u16,
        count: draw_count(last, held, random) as u16,
        records,
        data: vec![(start, data)],
    };
    let file = file.bytes();
    assert_eq!(recipe::edits(&file).as_deref(), Ok(list), "the file's list");
    file
}

/// One after another, or with records between them.
fn draw_indices(count: usize, random: &mut Random) -> Vec<usize> {
    let most_between = random.pick(&[0, 0, 1, 3]);
    let mut last = 0;
    let indices = (0..count).map(|_| {
        last += 1 + random.up_to(most_between);
        last
    });
    indices.collect()
}

/// From the last index on the chain to the most, whatever the file holds.
fn draw_count(last: usize, held: usize, random: &mut Random) -> usize {
    match random.up_to(7) {
        0 => last,
        1 => MOST_RECORDS,
        2 => held + 1,
        3 => held + random.up_to(200),
        _ => held,
    }
}

/// Where the data of each edit lie, and all of them; some are there only once.
fn draw_data(list: &[Step], random: &mut Random) -> (Vec<usize>, Vec<u8>) {
    let mut offsets = vec![0; list.len()];
    let mut all: Vec<u8> = Vec::new();
    let mut places: Vec<usize> = (0..list.len()).collect();
    shuffle(&mut places, random);
    for place in places {
        let data = recipe::data(&list[place]);
        // Long ones are not looked for, which takes long.
        let is_shared = random.one_in(2) && (1..1_000).contains(&data.len());
        let found = is_shared.then(|| all.windows(data.len()).position(|part| part == data));
        offsets[place] = found.flatten().unwrap_or_else(|| {
            if random.one_in(4) {
                let between = random.up_to(5);
                all.extend(random.bytes(between));
            }
            all.extend(&data);
            all.len() - data.len()
        });
    }
    (offsets, all)
}

/// The record of an edit; what its kind ignores is any number.
fn draw_record(step: &Step, next: usize, offset: usize, random: &mut Random) -> Record {
    let kind = recipe::kind(step).expect("an edit that a record can stand for");
    let any = draw_any(random);
    let mut record = Record {
        next: next as u16,
        kind,
        zero: 0,
        ..any
    };
    if let Some((place, _)) = step.place(0) {
        record.place = u32::try_from(place).expect("a place of four bytes");
    }
    if kind != DROP {
        record.offset = offset as u32;
        record.length = recipe::data(step).len() as u32;
    }
    record
}

/// A record that the chain leaves out: any bytes, or such as could stand for an edit.
fn draw_unused(random: &mut Random) -> Record {
    if random.one_in(2) {
        draw_any(random)
    } else {
        draw_good(random.up_to(8) as u16, random)
    }
}

fn draw_any(random: &mut Random) -> Record {
    Record {
        next: random.word() as u16,
        kind: random.word() as u8,
        zero: random.word() as u8,
        place: random.word() as u32,
        offset: random.word() as u32,
        length: random.word() as u32,
    }
}

/// A record that is in order in any file that it lies in: its data are among the first bytes.
pub fn draw_good(next: u16, random: &mut Random) -> Record {
    let kind = random.pick(&[BODY, DROP, KEY]);
    Record {
        next,
        kind,
        zero: 0,
        place: random.up_to(2) as u32,
        offset: random.up_to(4) as u32,
        length: match kind {
            KEY => KEY_LENGTH as u32,
            _ => random.up_to(8) as u32,
        },
    }
}

/// Lets some of the edits take their data from anywhere in the file: over head, records and each other.
pub fn move_data(file: &mut [u8], random: &mut Random) {
    for link in Chain::of(file).links {
        let record = link.record;
        if record.kind == DROP || random.one_in(2) {
            continue;
        }
        let length = match record.kind {
            KEY => KEY_LENGTH,
            _ => random.up_to(file.len().min(60)),
        };
        let last = file.len() - length;
        let last = random.pick(&[last, last.min(40)]);
        let moved = Record {
            offset: random.up_to(last) as u32,
            length: length as u32,
            ..record
        };
        put_record(file, usize::from(link.index), &moved);
    }
}

/// Replaces the record with this index.
pub fn put_record(file: &mut [u8], index: usize, record: &Record) {
    let start = HEAD + RECORD * (index - 1);
    file[start..start + RECORD].copy_from_slice(&record.bytes());
}

/// Cuts a file, changes some of its first bytes, or spoils a record of its chain.
pub fn spoil(file: &mut Vec<u8>, random: &mut Random) {
    let links = Chain::of(file).links;
    match random.up_to(3) {
        0 => file.truncate(random.up_to(file.len())),
        1 if !file.is_empty() => {
            for _ in 0..=random.up_to(2) {
                let place = random.up_to(file.len().min(80) - 1);
                file[place] = random.word() as u8;
            }
        }
        _ if !links.is_empty() => {
            let link = &links[random.up_to(links.len() - 1)];
            let flaw = random.up_to(FLAWS - 1);
            let spoilt = flawed(flaw, link.record.next, file.len(), random);
            put_record(file, usize::from(link.index), &spoilt);
        }
        _ => {}
    }
}

/// Each byte replaced by several others, each cut, and each byte left out.
pub fn every_damage(file: &[u8], random: &mut Random) -> Vec<Vec<u8>> {
    let mut all: Vec<Vec<u8>> = (0..file.len()).map(|end| file[..end].to_vec()).collect();
    for (place, &byte) in file.iter().enumerate() {
        let drawn = random.word() as u8;
        let others = [0, 1, 2, 3, 4, 8, 0xff, byte ^ 1, byte ^ 0x80, drawn];
        for other in others.into_iter().filter(|other| *other != byte) {
            let mut damaged = file.to_vec();
            damaged[place] = other;
            all.push(damaged);
        }
        let mut shorter = file.to_vec();
        shorter.remove(place);
        all.push(shorter);
    }
    all
}

/// The first index, and the next one of each record: each from 0 to one past the count.
pub fn every_shape(count: usize) -> impl Iterator<Item = Vec<u16>> {
    every_choice(count + 2, count + 1)
}

/// Each way to choose one of so many, so many times.
pub fn every_choice(of: usize, times: usize) -> impl Iterator<Item = Vec<u16>> {
    let all = (0..times).fold(1, |all, _| all * of);
    (0..all).map(move |choice| {
        let mut rest = choice;
        let digits = (0..times).map(|_| {
            let digit = rest % of;
            rest /= of;
            digit as u16
        });
        digits.collect()
    })
}

/// A file whose chain has this shape, with so many records in it; one past the count leads nowhere.
pub fn with_shape(
    shape: &[u16],
    held: usize,
    mut record: impl FnMut(usize, u16) -> Record,
) -> Vec<u8> {
    let records = (1..=held).map(|index| {
        let next = shape.get(index).copied().unwrap_or(0);
        record(index, next)
    });
    let file = File {
        first: shape[0],
        count: shape.len() as u16 - 1,
        records: records.collect(),
        data: Vec::new(),
    };
    file.bytes()
}

/// What is tried of one record: two ways to be in order, and the four to be 23.
pub const FLAWS: usize = 6;

/// A record with one of these, in a file of so many bytes.
pub fn flawed(flaw: usize, next: u16, length: usize, random: &mut Random) -> Record {
    let good = draw_good(next, random);
    match flaw {
        0 => good,
        // Its data are not asked for.
        1 => Record {
            kind: DROP,
            offset: u32::MAX - random.up_to(9) as u32,
            length: random.word() as u32,
            ..good
        },
        2 => Record {
            kind: random.pick(&[0, 4, 5, 0x10, 0x81, 0xff]),
            ..good
        },
        3 => Record {
            zero: random.pick(&[1, 2, 0x80, 0xff]),
            ..good
        },
        4 => Record {
            kind: KEY,
            length: random.pick(&[0, 7, 9, 16, 8 << 8, 8 << 16, 8 << 24, 8 | 1 << 31]),
            ..good
        },
        _ => past_the_end(good, length, random),
    }
}

/// Data of a body or a key that end a little or far past the file, or past what 32 bits say.
fn past_the_end(good: Record, length: usize, random: &mut Random) -> Record {
    let length = length as u32;
    let kind = random.pick(&[BODY, KEY]);
    let wanted = match kind {
        KEY => KEY_LENGTH as u32,
        _ => 1 + random.up_to(20) as u32,
    };
    let first = (length + 1).saturating_sub(wanted);
    let offset = random.pick(&[
        first,
        first + 1,
        length,
        length + 1,
        1 << 31,
        0_u32.wrapping_sub(wanted),
        u32::MAX,
    ]);
    Record {
        kind,
        offset,
        length: wanted,
        ..good
    }
}

/// Where data of a file of so many bytes can begin and how long they can be: at each edge, and past it.
///
/// # Panics
///
/// On a file of under 20 bytes.
#[must_use]
pub fn every_span(length: usize) -> Vec<(u32, u32)> {
    let length = u32::try_from(length).expect("a length of four bytes");
    let past_32_bits = |number: u32| 0_u32.wrapping_sub(number);
    let mut all = Vec::new();
    for back in [9, 8, 7, 1, 0] {
        for offset in [length - back, past_32_bits(back)] {
            all.push(offset);
        }
    }
    all.extend([1, 3, 4, 19, 20, length + 1, 1 << 16, 1 << 31]);
    all.extend([
        (1 << 31) - 1,
        past_32_bits(length),
        past_32_bits(length + 1),
    ]);
    let spans = all.into_iter().flat_map(|offset| {
        let left = length.wrapping_sub(offset);
        let rest = past_32_bits(offset);
        let lengths = [
            0,
            1,
            7,
            8,
            9,
            length,
            length + 1,
            1 << 16,
            1 << 31,
            u32::MAX,
        ];
        let edges = [left, rest, rest.wrapping_add(length)].into_iter();
        let edges =
            edges.flat_map(|edge| [edge.wrapping_sub(1), edge, edge.wrapping_add(1)].into_iter());
        let lengths = lengths.into_iter().chain(edges);
        lengths.map(move |length| (offset, length))
    });
    spans.collect()
}

/// A chain of so many records, each so many after the last one, in a file that has the most count.
pub fn long_chain(links: usize, stride: usize, random: &mut Random) -> Vec<u8> {
    let first = random.up_to(stride - 1) + 1;
    let last = first + (links - 1) * stride;
    assert!(last <= MOST_RECORDS, "a chain past the most records");
    let mut records: Vec<Record> = (0..last).map(|_| draw_unused(random)).collect();
    for index in (first..=last).step_by(stride) {
        let next = if index < last { index + stride } else { 0 };
        let mut record = draw_good(next as u16, random);
        // Else nothing would be left of the carrier soon.
        if record.kind == DROP && !random.one_in(200) {
            record.kind = BODY;
        }
        records[index - 1] = record;
    }
    let file = File {
        first: first as u16,
        count: MOST_RECORDS as u16,
        records,
        data: Vec::new(),
    };
    file.bytes()
}
