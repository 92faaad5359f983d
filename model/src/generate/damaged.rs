//! A file of another kind that is spoiled in one place.

use super::{file, Kind, Wish};
use crate::limits::EVENTS;
use crate::random::Random;

pub fn bytes(random: &mut Random, wish: Wish) -> Vec<u8> {
    let kind = match random.below(20) {
        0 => Kind::Stubborn,
        1..=6 => Kind::Fields,
        _ => Kind::Living,
    };
    let mut bytes = file(kind, random.draw(), wish);
    spoil(random, &mut bytes);
    bytes
}

/// Damages a file whose header is good.
fn spoil(random: &mut Random, bytes: &mut Vec<u8>) {
    let n = bytes[0] as usize;
    let length = bytes.len() as u64;
    match random.below(10) {
        0 => bytes.truncate(random.below(length) as usize),
        1 => bytes.truncate(random.below(length.min(n as u64 + 4)) as usize),
        2 => bytes.truncate(length as usize - 1),
        3 => lengthen(random, bytes),
        4 => bytes[0] = random.pick(&[0, 1, 7, 8, 255]),
        5 => {
            let mark = random.between(1, n as u64) as usize;
            bytes[mark] = random.pick(&[0, 1, 2, 3, 128, 255]);
        }
        6 => spoil_count(random, &mut bytes[n + 1..n + 3]),
        _ => {
            let place = random.below(length) as usize;
            bytes[place] ^= 1 << random.below(8);
        }
    }
}

fn lengthen(random: &mut Random, bytes: &mut Vec<u8>) {
    for _ in 0..random.between(1, 12) {
        bytes.push(random.byte());
    }
}

/// A count that is one off, or above what is allowed, or anything.
fn spoil_count(random: &mut Random, count: &mut [u8]) {
    let said = u16::from_be_bytes([count[0], count[1]]);
    let spoiled = match random.below(4) {
        0 => said.wrapping_add(1),
        1 => said.wrapping_sub(1),
        2 => EVENTS as u16 + 1 + random.below(3) as u16,
        _ => random.draw() as u16,
    };
    count.copy_from_slice(&spoiled.to_be_bytes());
}
