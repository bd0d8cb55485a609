//! Recipes followed wrongly in the library's place, each in a way that the groups named with it have to catch.

use crate::lent::Lent;
use crate::library::Replied;
use crate::self_check;
use differential::carrier::{Reply, BROKEN_CHAIN, HEADER_CUT, INVALID_RECORD};
use differential::case::ACCEPTED;
use differential::facts;
use differential::plain::{Edit, Step};
use differential::recipe::Asked;

/// What is done wrong.
#[derive(Clone, Copy, Debug, Eq, PartialEq)]
pub enum Fault {
    None,
    // In the run.
    RefusedSwitches,
    SameBuffer,
    SecondFirst,
    StartAgain,
    StopAtRefused,
    OtherRoom,
    ClearedRest,
    NotCounted,
    CarriersLength,
    LengthIn32Bits,
    BuffersLength,
    ClearsNothing,
    ClearsLast,
    GoodBeginning,
    // Along the chain.
    OwnIndex,
    LastIndex,
    CountNotAsked,
    CountInTheFile,
    HeaderCut,
    RecordFirst,
    IndicesFirst,
    EachRecord,
    // In a record.
    KindZero,
    ZeroOfADrop,
    DataOfADrop,
    KeyLength,
    KeyTurnedAround,
    EndIn32Bits,
    EndOfTheFile,
}

pub struct Mistake {
    pub name: &'static str,
    pub fault: Fault,
    /// By their names.
    pub caught_by: &'static [&'static str],
}

const ANY: &str = "recipes of any edits on any start";
const DAMAGED: &str = "recipes damaged at each byte";
const CHAINS: &str = "chains of every shape";
const FAULTS: &str = "records with faults, on the chain and off it";
const EDGES: &str = "data at every edge, and long chains";
const HUGE: &str = "recipes and starts of 2^32 bytes";
const LISTS: &str = "lists of edits and recipes, two at a time";

pub const MISTAKES: [Mistake; 29] = [
    Mistake {
        name: "switches buffers after a refused edit",
        fault: Fault::RefusedSwitches,
        caught_by: &[ANY, DAMAGED, CHAINS, EDGES, LISTS],
    },
    Mistake {
        name: "writes to the buffer that holds the source",
        fault: Fault::SameBuffer,
        caught_by: &[ANY, DAMAGED, CHAINS, EDGES, LISTS],
    },
    Mistake {
        name: "writes to the second buffer first",
        fault: Fault::SecondFirst,
        caught_by: &[ANY, DAMAGED, CHAINS, EDGES, LISTS],
    },
    Mistake {
        name: "makes each edit on the start",
        fault: Fault::StartAgain,
        caught_by: &[ANY, CHAINS, EDGES, LISTS],
    },
    Mistake {
        name: "stops at a refused edit",
        fault: Fault::StopAtRefused,
        caught_by: &[ANY, CHAINS, EDGES, LISTS],
    },
    Mistake {
        name: "takes the other buffer's length for its own",
        fault: Fault::OtherRoom,
        caught_by: &[ANY, LISTS],
    },
    Mistake {
        name: "clears a buffer after the carrier",
        fault: Fault::ClearedRest,
        caught_by: &[ANY, CHAINS, LISTS],
    },
    Mistake {
        name: "counts no refused edits",
        fault: Fault::NotCounted,
        caught_by: &[ANY, CHAINS, EDGES, LISTS],
    },
    Mistake {
        name: "answers the carrier's length for the start's",
        fault: Fault::CarriersLength,
        caught_by: &[ANY],
    },
    Mistake {
        name: "answers the start's length in 32 bits",
        fault: Fault::LengthIn32Bits,
        caught_by: &[HUGE],
    },
    Mistake {
        name: "answers the buffer's length for the carrier's",
        fault: Fault::BuffersLength,
        caught_by: &[ANY, CHAINS, LISTS],
    },
    Mistake {
        name: "leaves the protection with the edits of a recipe",
        fault: Fault::ClearsNothing,
        caught_by: &[ANY, DAMAGED, CHAINS, EDGES, LISTS],
    },
    Mistake {
        name: "clears the protection with a recipe's last edit alone",
        fault: Fault::ClearsLast,
        caught_by: &[ANY, DAMAGED, CHAINS, EDGES, LISTS],
    },
    Mistake {
        name: "runs the good beginning of a wrong recipe",
        fault: Fault::GoodBeginning,
        caught_by: &[ANY, DAMAGED, CHAINS, FAULTS, EDGES, LISTS],
    },
    Mistake {
        name: "lets a record lead to itself",
        fault: Fault::OwnIndex,
        caught_by: &[DAMAGED, CHAINS, FAULTS],
    },
    Mistake {
        name: "refuses the index that is the count",
        fault: Fault::LastIndex,
        caught_by: &[ANY, CHAINS, FAULTS, EDGES, LISTS],
    },
    Mistake {
        name: "lets an index pass the count",
        fault: Fault::CountNotAsked,
        caught_by: &[DAMAGED, CHAINS],
    },
    Mistake {
        name: "wants the file to hold the count",
        fault: Fault::CountInTheFile,
        caught_by: &[ANY, DAMAGED, CHAINS, FAULTS, LISTS],
    },
    Mistake {
        name: "answers 21 for a short file",
        fault: Fault::HeaderCut,
        caught_by: &[ANY, DAMAGED],
    },
    Mistake {
        name: "asks 23 before 22 in a record",
        fault: Fault::RecordFirst,
        caught_by: &[DAMAGED, FAULTS],
    },
    Mistake {
        name: "asks 22 of the whole chain before 23",
        fault: Fault::IndicesFirst,
        caught_by: &[FAULTS],
    },
    Mistake {
        name: "asks 23 of the records off the chain",
        fault: Fault::EachRecord,
        caught_by: &[ANY, FAULTS, LISTS],
    },
    Mistake {
        name: "takes kind 0 for a drop",
        fault: Fault::KindZero,
        caught_by: &[DAMAGED, FAULTS],
    },
    Mistake {
        name: "asks no zero byte of a drop",
        fault: Fault::ZeroOfADrop,
        caught_by: &[DAMAGED, FAULTS],
    },
    Mistake {
        name: "asks a drop for its data",
        fault: Fault::DataOfADrop,
        caught_by: &[ANY, FAULTS, EDGES, LISTS],
    },
    Mistake {
        name: "asks no length of a key",
        fault: Fault::KeyLength,
        caught_by: &[DAMAGED, FAULTS, EDGES],
    },
    Mistake {
        name: "takes a key's bytes in the other order",
        fault: Fault::KeyTurnedAround,
        caught_by: &[ANY, CHAINS, EDGES, LISTS],
    },
    Mistake {
        name: "adds offset and length in 32 bits",
        fault: Fault::EndIn32Bits,
        caught_by: &[FAULTS, EDGES, HUGE],
    },
    Mistake {
        name: "refuses data that end with the file",
        fault: Fault::EndOfTheFile,
        caught_by: &[ANY, EDGES, LISTS],
    },
];

/// An answer, after the buffers that were lent were written to.
#[must_use]
pub fn played(fault: Fault, asked: &Asked, buffers: &mut [Lent; 2]) -> Replied {
    for (buffer, room) in buffers.iter_mut().zip(asked.rooms()) {
        buffer.lend(room);
    }
    let mut edits = Vec::new();
    let refused = along(fault, asked.file, &mut edits).err();
    let accepted = match asked.run {
        None => Reply::accepted(&[edits.len() as u64]),
        Some(_) if refused.is_some() && fault != Fault::GoodBeginning => Reply::accepted(&[]),
        Some((source, _)) => follow(fault, source, &edits, buffers),
    };
    Replied {
        reply: refused.map_or(accepted, |number| Reply::new(number, &[])),
        frame_intact: true,
    }
}

/// More edits than a chain has unless it goes in circles.
const MOST_EDITS: usize = 65_536;

/// The edits along the chain, up to the number of a refusal.
fn along(fault: Fault, file: &[u8], edits: &mut Vec<Step>) -> Result<(), u32> {
    if file.len() < 4 {
        return Err(match fault {
            Fault::HeaderCut => HEADER_CUT,
            _ => BROKEN_CHAIN,
        });
    }
    let mut index = number(&file[..2]);
    let count = number(&file[2..4]);
    let last = match fault {
        Fault::LastIndex => count.saturating_sub(1),
        Fault::CountNotAsked => usize::MAX,
        _ => count,
    };
    if index > last {
        return Err(BROKEN_CHAIN);
    }
    match fault {
        Fault::CountInTheFile if 4 + 16 * count > file.len() => return Err(BROKEN_CHAIN),
        Fault::EachRecord => each_record(file, count)?,
        Fault::IndicesFirst => indices(file, index, last)?,
        _ => {}
    }
    while index > 0 && edits.len() < MOST_EDITS {
        let record = record(file, index)?;
        let next = number(&record[..2]);
        let edit = edit(fault, file, record);
        let least = match fault {
            Fault::OwnIndex => index,
            _ => index + 1,
        };
        if fault == Fault::RecordFirst && edit.is_none() {
            return Err(INVALID_RECORD);
        }
        if next > 0 && (next < least || last < next) {
            return Err(BROKEN_CHAIN);
        }
        edits.push(edit.ok_or(INVALID_RECORD)?);
        index = next;
    }
    Ok(())
}

fn number(bytes: &[u8]) -> usize {
    bytes
        .iter()
        .fold(0, |number, &byte| 256 * number + usize::from(byte))
}

fn record(file: &[u8], index: usize) -> Result<&[u8], u32> {
    let end = 4 + 16 * index;
    file.get(end - 16..end).ok_or(BROKEN_CHAIN)
}

/// Asks all records that the file holds, on the chain or not.
fn each_record(file: &[u8], count: usize) -> Result<(), u32> {
    let records = (1..=count).map_while(|index| record(file, index).ok());
    let mut edits = records.map(|record| edit(Fault::None, file, record));
    if edits.any(|edit| edit.is_none()) {
        return Err(INVALID_RECORD);
    }
    Ok(())
}

/// Asks where the chain leads, and nothing else of its records.
fn indices(file: &[u8], first: usize, last: usize) -> Result<(), u32> {
    let mut index = first;
    while index > 0 {
        let next = number(&record(file, index)?[..2]);
        if next > 0 && (next <= index || last < next) {
            return Err(BROKEN_CHAIN);
        }
        index = next;
    }
    Ok(())
}

/// The edit that a record stands for.
fn edit(fault: Fault, file: &[u8], record: &[u8]) -> Option<Step> {
    let [kind, zero] = [record[2], record[3]];
    let [place, offset, length] = [4, 8, 12].map(|at| number(&record[at..at + 4]));
    let is_drop = kind == 2;
    let end = match fault {
        Fault::EndIn32Bits => (offset + length) % (1 << 32),
        _ => offset + length,
    };
    let most = match fault {
        Fault::EndOfTheFile => file.len() - 1,
        _ => file.len(),
    };
    let is_zero = zero == 0 || (is_drop && fault == Fault::ZeroOfADrop);
    let is_as_long = kind != 3 || length == 8 || fault == Fault::KeyLength;
    let is_there = end <= most || (is_drop && fault != Fault::DataOfADrop);
    if !(is_zero && is_as_long && is_there) {
        return None;
    }
    let data = file.get(offset..offset + length).unwrap_or_default();
    let more = |key_id: u64, byte: &u8| key_id << 8 | u64::from(*byte);
    match kind {
        0 if fault == Fault::KindZero => Some(Step::Drop { place }),
        1 => Some(Step::Body {
            place,
            body: data.to_vec(),
        }),
        2 => Some(Step::Drop { place }),
        3 => Some(Step::Key {
            key_id: match fault {
                Fault::KeyTurnedAround => data.iter().rev().fold(0, more),
                _ => data.iter().fold(0, more),
            },
        }),
        _ => None,
    }
}

/// The answer of a run.
fn follow(fault: Fault, source: &[u8], edits: &[Step], buffers: &mut [Lent; 2]) -> Reply {
    let mut run = Run {
        fault,
        source,
        buffers: buffers.each_ref().map(|buffer| buffer.lent().to_vec()),
        holder: 0,
        length: source.len(),
        refused: 0,
    };
    run.make(edits);
    for (buffer, bytes) in buffers.iter_mut().zip(&run.buffers) {
        buffer.write(bytes);
    }
    run.reply()
}

/// A run on memory of its own.
struct Run<'a> {
    fault: Fault,
    source: &'a [u8],
    buffers: [Vec<u8>; 2],
    /// 0 for the source.
    holder: usize,
    length: usize,
    refused: usize,
}

impl Run<'_> {
    fn make(&mut self, edits: &[Step]) {
        for (turn, step) in edits.iter().enumerate() {
            let aim = self.aim(turn);
            let room = match self.fault {
                Fault::OtherRoom => self.buffers[1 - aim].len(),
                _ => self.buffers[aim].len(),
            };
            let edit = Edit {
                source: self.held(),
                step,
                destination: room,
            };
            let played = match self.fault {
                Fault::ClearsNothing => self_check::clears_nothing(&edit),
                Fault::ClearsLast if turn + 1 < edits.len() => self_check::clears_nothing(&edit),
                _ => self_check::faithful(&edit),
            };
            if played.reply.number == ACCEPTED {
                self.write(aim, &played.written);
            } else {
                self.refused += 1;
                if self.fault == Fault::StopAtRefused {
                    return;
                }
            }
        }
    }

    /// The buffer that an edit writes to.
    fn aim(&self, turn: usize) -> usize {
        match self.fault {
            Fault::RefusedSwitches => turn % 2,
            Fault::SameBuffer => self.holder.saturating_sub(1),
            Fault::SecondFirst => usize::from(self.holder != 2),
            _ => usize::from(self.holder == 1),
        }
    }

    /// What an edit is made on.
    fn held(&self) -> &[u8] {
        match self.holder {
            0 => self.source,
            _ if self.fault == Fault::StartAgain => self.source,
            holder => &self.buffers[holder - 1][..self.length],
        }
    }

    fn write(&mut self, aim: usize, carrier: &[u8]) {
        let buffer = &mut self.buffers[aim];
        let written = carrier.len().min(buffer.len());
        buffer[..written].copy_from_slice(&carrier[..written]);
        if self.fault == Fault::ClearedRest {
            buffer[written..].fill(0);
        }
        self.holder = aim + 1;
        self.length = written;
    }

    fn reply(&self) -> Reply {
        let length = match (self.fault, self.holder) {
            (Fault::CarriersLength, 0) => {
                let found = facts::reading(self.source);
                found.map_or(0, |found| found.consumed)
            }
            (Fault::LengthIn32Bits, _) => self.length % (1 << 32),
            (Fault::BuffersLength, 1 | 2) => self.buffers[self.holder - 1].len(),
            _ => self.length,
        };
        let refused = match self.fault {
            Fault::NotCounted => 0,
            _ => self.refused,
        };
        Reply::accepted(&[self.holder, length, refused].map(|number| number as u64))
    }
}
