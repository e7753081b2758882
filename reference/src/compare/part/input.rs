//! Inputs of the call on one data part: random ones, and the words by which one
//! is shown and given again.

use std::fmt;

use super::SHORT;
use crate::compare::outcome::Memory;
use crate::octets::packed;
use crate::part::{read_part_fast, Start, StartHandedIn, BITS};
use crate::random::{self, Random};

/// How the bits of an input were made.
#[derive(Clone, Copy, Debug, PartialEq, Eq)]
pub enum Kind {
    Legal,
    /// Legal from another X.
    OtherX,
    Turned,
    Cut,
    Noise,
}

#[derive(Clone, Debug, PartialEq, Eq)]
pub struct Input {
    pub octets: Vec<u8>,
    pub count: u64,
    pub start: StartHandedIn,
    pub memory: Memory,
}

impl Input {
    pub fn random(random: &mut Random) -> (Kind, Input) {
        let (kind, start, bits) = string(random);
        let count = count(random, bits.len() as u64);
        let octets = lent(random, bits, count);
        let StartHandedIn {
            state,
            black,
            white,
            x,
        } = StartHandedIn::of(start);
        let start = StartHandedIn {
            state: spoilt(random, state, &[4, 5]),
            black: spoilt(random, black, &[0, 1, 8, 9]),
            white: spoilt(random, white, &[0, 1, 8, 9]),
            x: spoilt(random, x, &[1726, 1727, 2047, 3451, 4095]),
        };
        let columns = match read_part_fast(&octets, count, start, usize::MAX) {
            Ok(part) => part.columns.len(),
            Err(_) => random.below(64) as usize,
        };
        let input = Input {
            octets,
            count,
            start,
            memory: Memory::random(random, columns, 9271),
        };
        (kind, input)
    }

    /// The input that [`Display`](fmt::Display) shows as these words.
    pub fn from_words(words: &[String]) -> Option<Input> {
        let [octets, count, state, black, white, x, room, fill] = words else {
            return None;
        };
        Some(Input {
            octets: octets_from(octets)?,
            count: count.parse().ok()?,
            start: StartHandedIn {
                state: state.parse().ok()?,
                black: black.parse().ok()?,
                white: white.parse().ok()?,
                x: x.parse().ok()?,
            },
            memory: Memory {
                room: room.parse().ok()?,
                fill: fill.parse().ok()?,
            },
        })
    }
}

impl fmt::Display for Input {
    fn fmt(&self, f: &mut fmt::Formatter) -> fmt::Result {
        if self.octets.is_empty() {
            write!(f, "-")?;
        }
        for octet in &self.octets {
            write!(f, "{octet:02X}")?;
        }
        let StartHandedIn {
            state,
            black,
            white,
            x,
        } = self.start;
        let Memory { room, fill } = self.memory;
        write!(
            f,
            " {} {state} {black} {white} {x} {room} {fill}",
            self.count
        )
    }
}

/// Octets from two hexadecimal digits each, or `-` for none.
fn octets_from(word: &str) -> Option<Vec<u8>> {
    let digits = if word == "-" { "" } else { word };
    digits
        .as_bytes()
        .chunks(2)
        .map(|two| u8::from_str_radix(std::str::from_utf8(two).ok()?, 16).ok())
        .collect()
}

/// A string of bits and where to read it from.
fn string(random: &mut Random) -> (Kind, Start, Vec<u8>) {
    let limit = match random.below(4) {
        0 => random.below(SHORT + 1),
        1 => 490 + random.below(31),
        _ => random.below(BITS + 1),
    } as usize;
    let kind = match random.below(16) {
        0..=6 => Kind::Legal,
        7..=8 => Kind::OtherX,
        9..=11 => Kind::Turned,
        12..=13 => Kind::Cut,
        _ => Kind::Noise,
    };
    let start = random::start(random);
    let walk = if random.chance(10) {
        random::walk_about_edge(random, start, limit)
    } else {
        random::walk(random, start, limit)
    };
    let mut bits = match kind {
        Kind::Noise => random::noise(random, limit),
        _ => walk.bits(),
    };
    let start = match kind {
        Kind::OtherX => start,
        _ => walk.start,
    };
    match kind {
        Kind::Turned => random::turn_one(random, &mut bits),
        Kind::Cut => bits.truncate(bits.len().saturating_sub(1 + random.below(8) as usize)),
        Kind::Legal | Kind::OtherX | Kind::Noise => {}
    }
    (kind, start, bits)
}

/// The number of bits made, or seldom another count.
fn count(random: &mut Random, made: u64) -> u64 {
    match random.below(64) {
        0 => made + 1 + random.below(8),
        1 => random.pick(&[BITS, BITS + 1, BITS + 8, 1 << 32, 1 << 61, u64::MAX]),
        _ => made,
    }
}

/// Octets that begin with the bits, and seldom fall short of the count. What
/// stands after the count must not matter, nor how much of it there is.
fn lent(random: &mut Random, mut bits: Vec<u8>, count: u64) -> Vec<u8> {
    let least = count.min(BITS + 8) + random.pick(&[0, 0, 0, 8, 16, 80]);
    while (bits.len() as u64) < least || !bits.len().is_multiple_of(8) {
        bits.push(random.below(2) as u8);
    }
    let mut octets = packed(&bits);
    if random.below(64) == 0 {
        octets.truncate(random.below(1 + count.min(BITS) / 8) as usize);
    }
    octets
}

/// The number, or seldom one that is not allowed, among them those that only
/// look allowed when cut to fewer bits.
fn spoilt(random: &mut Random, number: u64, wrong: &[u64]) -> u64 {
    match random.below(64) {
        0 => random.pick(wrong),
        1 => number + random.pick(&[1 << 12, 1 << 16, 1 << 32, 1 << 63]),
        _ => number,
    }
}
