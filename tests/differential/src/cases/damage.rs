//! Damaged copies of a carrier, and containers of random bits.

use crate::carrier::{HEADER, MOST_DECLARED};
use crate::contents::Bits;
use crate::random::Random;
use crate::shapes;

/// Each bit flipped, each cut, each byte left out, bytes inserted, and other lengths declared.
pub fn small(carrier: &[u8], random: &mut Random) -> Vec<Vec<u8>> {
    every_flip(carrier)
        .chain(every_cut(carrier))
        .chain(every_missing_byte(carrier))
        .chain(inserted_bytes(carrier, random))
        .chain(other_lengths(carrier, random))
        .collect()
}

fn every_flip(carrier: &[u8]) -> impl Iterator<Item = Vec<u8>> + '_ {
    (0..8 * carrier.len()).map(|bit| {
        let mut bytes = carrier.to_vec();
        flip(&mut bytes, bit);
        bytes
    })
}

/// Each length below its own, declared as before and truly.
fn every_cut(carrier: &[u8]) -> impl Iterator<Item = Vec<u8>> + '_ {
    (0..carrier.len()).flat_map(|end| with_true_length(carrier[..end].to_vec()))
}

/// Each byte after the header left out, the length declared as before and truly.
fn every_missing_byte(carrier: &[u8]) -> impl Iterator<Item = Vec<u8>> + '_ {
    (HEADER..carrier.len()).flat_map(|place| {
        let mut bytes = carrier.to_vec();
        bytes.remove(place);
        with_true_length(bytes)
    })
}

/// Three bytes more or fewer declared at most, or any number, with and without bytes after it.
fn other_lengths(carrier: &[u8], random: &mut Random) -> Vec<Vec<u8>> {
    let declared = carrier.len() - HEADER;
    let mut all = Vec::new();
    for after in [0, 3] {
        let near = declared.saturating_sub(3)..=declared + 3;
        for other in near.chain([random.up_to(40), random.up_to(MOST_DECLARED)]) {
            let mut bytes = carrier.to_vec();
            bytes.extend(random.bytes(after));
            declare(&mut bytes, other);
            all.push(bytes);
        }
    }
    all
}

/// A byte more at ten places, the length declared as before and truly.
fn inserted_bytes(carrier: &[u8], random: &mut Random) -> Vec<Vec<u8>> {
    let inserted = (0..10).flat_map(|_| {
        let mut bytes = carrier.to_vec();
        let place = HEADER + random.up_to(carrier.len() - HEADER);
        let drawn = random.word() as u8;
        bytes.insert(place, random.pick(&[0x00, 0xff, drawn]));
        with_true_length(bytes)
    });
    inserted.collect()
}

pub fn flipped(carrier: &[u8], flips: usize, random: &mut Random) -> Vec<u8> {
    let mut bytes = carrier.to_vec();
    for _ in 0..flips {
        let bit = random.up_to(8 * bytes.len() - 1);
        flip(&mut bytes, bit);
    }
    bytes
}

pub fn changed_bytes(carrier: &[u8], random: &mut Random) -> Vec<u8> {
    let mut bytes = carrier.to_vec();
    for _ in 0..=random.up_to(3) {
        let place = random.up_to(bytes.len() - 1);
        bytes[place] = random.word() as u8;
    }
    bytes
}

/// The bytes as they are and, where there is a header, with the length that they have.
fn with_true_length(bytes: Vec<u8>) -> impl Iterator<Item = Vec<u8>> {
    let declared = bytes.len().checked_sub(HEADER);
    let truly = declared.map(|declared| {
        let mut bytes = bytes.clone();
        declare(&mut bytes, declared);
        bytes
    });
    [bytes].into_iter().chain(truly)
}

pub fn declare(bytes: &mut [u8], declared: usize) {
    bytes[2..HEADER].copy_from_slice(&(declared as u16).to_be_bytes());
}

pub fn flip(bytes: &mut [u8], bit: usize) {
    bytes[bit / 8] ^= 0x80 >> (bit % 8);
}

/// Contents up to some bit, then random ones, few or many of them set, in a true length.
pub fn random_container(random: &mut Random, most_bits: usize) -> Vec<u8> {
    let mut bits = start_of_container(random);
    let more = random.up_to(most_bits);
    let ones = random.pick(&[2, 8, 16, 32, 48, 60, 64]);
    bits.0.extend((0..more).map(|_| random.up_to(63) < ones));
    bits.carrier()
}

/// Contents as far as some bit, and none of them one time in four.
fn start_of_container(random: &mut Random) -> Bits {
    if random.one_in(4) {
        return Bits::default();
    }
    let payloads = random.up_to(2);
    let (mut bits, _) = shapes::draw_contents(random, payloads, 4).bits();
    let kept = random.up_to(bits.length());
    bits.0.truncate(kept);
    bits
}
