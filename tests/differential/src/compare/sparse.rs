//! The groups for slices of some 2^32 bytes, nearly all of them zero.

use crate::examine::{class_name, disagreement, MALFORMED, NON_EMDF, TRAILING_DATA};
use crate::guard::Input;
use crate::judge;
use crate::lent::Lent;
use crate::report::{Difference, Group, Tally};
use differential::carrier::{
    Ask, Asked, NOT_ONE_OF_EACH, NO_SUCH_ORDINAL, NO_SUCH_PLACE, NO_SYNC_WORD, PROFILE_NOT_MET,
    ROW, SCRATCH_TOO_SHORT, TABLE_TOO_SHORT,
};
use differential::case::{
    Call, Cursor, Request, ACCEPTED, INVALID_BOUNDS, TOO_FEW_BITS, TOO_MANY_GROUPS,
    VALUE_TOO_LARGE, WIDTH_TOO_LARGE,
};
use differential::damage;
use differential::facts::Facts;
use differential::options::Length;
use differential::pairs::{self, Near};
use differential::profile::STRICT;
use differential::random::Random;
use differential::shapes;
use differential::wrong;

pub const GROUPS: [Group; 2] = [
    Group {
        name: "bits of slices of 2^32 bytes",
        least: 100,
        outcomes: &[
            ("bit_cursor", ACCEPTED),
            ("bits_remaining", ACCEPTED),
            ("read_bits", ACCEPTED),
            ("read_bits", TOO_FEW_BITS),
            ("read_bits", WIDTH_TOO_LARGE),
            ("read_bit", ACCEPTED),
            ("read_bit", TOO_FEW_BITS),
            ("take_bits", ACCEPTED),
            ("take_bits", TOO_FEW_BITS),
            ("byte_align", ACCEPTED),
            ("byte_align", TOO_FEW_BITS),
            ("variable_bits", ACCEPTED),
            ("variable_bits", TOO_FEW_BITS),
            ("variable_bits", INVALID_BOUNDS),
            ("variable_bits", TOO_MANY_GROUPS),
            ("variable_bits", VALUE_TOO_LARGE),
        ],
        marks: &[],
        run: bits,
    },
    Group {
        name: "carriers at the start of slices of 2^32 bytes",
        least: 20,
        outcomes: &[
            ("classify", ACCEPTED),
            ("classify", TOO_FEW_BITS),
            ("read", ACCEPTED),
            ("read", NO_SYNC_WORD),
            ("read", TOO_FEW_BITS),
            ("read", TABLE_TOO_SHORT),
            ("find_payload", ACCEPTED),
            ("find_payload", NO_SUCH_ORDINAL),
            ("find_payload", TOO_FEW_BITS),
            ("move_body", ACCEPTED),
            ("move_body", NO_SUCH_PLACE),
            ("move_body", SCRATCH_TOO_SHORT),
            ("verdict", ACCEPTED),
            ("verdict", NOT_ONE_OF_EACH),
            ("verdict", PROFILE_NOT_MET),
        ],
        marks: &[NON_EMDF, TRAILING_DATA, MALFORMED],
        run: carriers,
    },
];

/// Around what a number of 32 bits can count.
pub const LENGTHS: [usize; 3] = [(1 << 32) - 1, 1 << 32, (1 << 32) + 5];

/// How many bits on either side of an edge are tried, and how many bytes there are not zero.
const NEAR: usize = 70;
const FILLED: usize = 24;

/// The bits after the last one that 31 bits and that 32 bits count, those of the bytes so counted, and
/// the slice's end, which 2^32 bytes are near.
fn edges(length: usize) -> [usize; 4] {
    [1 << 31, 1 << 32, 8 << 31, 8 * length]
}

fn bits(tally: &mut Tally, random: &mut Random, rounds: Length) -> Result<(), Difference> {
    for _ in 0..rounds.rounds(5, 100) {
        for length in LENGTHS {
            let input = Input::sparse(length, &filled_edges(length, random));
            for _ in 0..40 {
                judge::check_as_it_lies(&input, Request::bit_cursor(), tally)?;
            }
            for edge in edges(length) {
                for position in edge - NEAR..=(edge + NEAR).min(8 * length) {
                    for request in requests(position, length, random) {
                        judge::check_as_it_lies(&input, request, tally)?;
                    }
                }
            }
        }
    }
    Ok(())
}

fn filled_edges(length: usize, random: &mut Random) -> Vec<(usize, Vec<u8>)> {
    edges(length)
        .map(|edge| {
            let start = edge / 8 - FILLED;
            let bytes = (2 * FILLED).min(length - start);
            let ones = random.one_in(3);
            let part = random.bytes(bytes).into_iter();
            // Fields with many groups want more bits that are set.
            let part = part.map(|byte| if ones { byte | 0xee } else { byte });
            (start, part.collect())
        })
        .to_vec()
}

/// Every call from a position, to the slice's end and to one that is near.
fn requests(position: usize, length: usize, random: &mut Random) -> Vec<Request> {
    let all = 8 * length;
    let mut requests = Vec::new();
    for end in [all, all.min(position + random.up_to(NEAR))] {
        let cursor = Cursor::new(position, end);
        let left = end - position;
        let counts = [left, left + 1, left / 2, 1 << 31, 1 << 32, (1 << 32) + 1];
        let widths = [8, 32, 64, 65, random.up_to(66)];
        requests.extend(
            [Call::BitsRemaining, Call::ReadBit, Call::ByteAlign]
                .map(|call| Request::new(call, cursor, 0)),
        );
        requests.extend(widths.map(|width| Request::new(Call::ReadBits, cursor, width)));
        requests.extend(counts.map(|count| Request::new(Call::TakeBits, cursor, count)));
        let (width, limit) = (random.up_to(64) as u8, random.up_to(12) as u8);
        requests.extend(
            [(width, limit), (1, 8), (3, 2), (20, 4)]
                .map(|(width, limit)| Request::field(cursor, width, limit)),
        );
    }
    requests
}

fn carriers(tally: &mut Tally, random: &mut Random, rounds: Length) -> Result<(), Difference> {
    let mut lent = Lent::new();
    for round in 0..rounds.rounds(4_000, 80_000) {
        let length = LENGTHS[round % LENGTHS.len()];
        let start = start_of_slice(round, random);
        let end = (length - FILLED, random.bytes(FILLED));
        let input = Input::sparse(length, &[(0, start), end]);
        examine(input.bytes(), tally, &mut lent)?;
    }
    Ok(())
}

/// A carrier, a pair near the profile, one with a thing wrong, a damaged one, or random bits.
fn start_of_slice(round: usize, random: &mut Random) -> Vec<u8> {
    let payloads = 1 + random.up_to(4);
    let contents = shapes::draw_contents(random, payloads, 60);
    let (carrier, _) = contents.written();
    match round % 5 {
        0 => carrier,
        1 => {
            let near = if random.one_in(2) {
                Near::draw(random)
            } else {
                Near::MET
            };
            let pair = near.pair(random);
            pairs::contents(&pair, random.one_in(2), random).written().0
        }
        2 => {
            let mut wrong = wrong::carriers(&contents, random);
            wrong.swap_remove(random.up_to(wrong.len() - 1)).carrier
        }
        3 => damage::changed_bytes(&carrier, random),
        _ => damage::random_container(random, 200),
    }
}

/// What stands at the start of the slice, asked of both sides as it lies.
fn examine(bytes: &[u8], tally: &mut Tally, lent: &mut Lent) -> Result<(), Difference> {
    let facts = Facts::new(bytes);
    tally.mark(class_name(facts.class()));
    let rows = ROW * facts.count();
    let mut asks = vec![Ask::Classify];
    asks.extend([rows + ROW, rows, rows.saturating_sub(1)].map(|table| Ask::Read { table }));
    asks.extend([STRICT, 1].map(|profile| Ask::Verdict { profile }));
    for place in [0, 1, facts.count(), 1 << 32] {
        asks.extend([0, 60].map(|scratch| Ask::MoveBody { place, scratch }));
    }
    let ids = facts
        .reading
        .iter()
        .flat_map(|found| &found.contents.payloads);
    let ids: Vec<u64> = ids.map(|payload| payload.id).chain([0]).collect();
    for ordinal in [0, 1, 2, 1 << 32 | 1] {
        asks.extend(ids.iter().map(|&id| Ask::Find { id, ordinal }));
    }
    for ask in asks {
        tally.count(ask.name(), facts.reply(ask).number);
        if let Some(said) = disagreement(bytes, ask, &facts, lent) {
            let case = Asked { bytes, ask };
            return Err(Difference(format!("difference, not shrunk:\n{case}{said}")));
        }
    }
    Ok(())
}
