//! Random inputs of the call that writes a page file.

use std::fmt;

use super::{pages, How, NUMBERS};
use crate::compare::outcome::Memory;
use crate::compare::{spoilt_bitmap, spoilt_check};
use crate::file::write::{image_frames, most_columns, RATES};
use crate::file::{END, RECORD};
use crate::page::{bitmap, columns};
use crate::random::columns::make_untellable;
use crate::random::{self, Random};
use crate::register::HandedIn;

#[derive(Clone, Debug, PartialEq, Eq)]
pub struct Input {
    pub bitmap: Vec<u8>,
    pub how: How,
    pub memory: Memory,
}

/// One page in so many has the most lines or nearly. They take long.
const MANY_LINES: u64 = 300;

/// At most so many octets of room are lent that are not needed.
const MORE: u64 = 4096;

impl Input {
    /// A page and how to write it, and the numbers that it would be refused by,
    /// each if it were not for those before it. What is spoilt has about the
    /// room for the page that it was, so that a call which writes before it
    /// refuses is seen to write.
    pub fn random(random: &mut Random) -> (Vec<u64>, Input) {
        let how = How {
            settings: random::file::settings(random),
            rate: random.pick(&RATES),
            check: HandedIn::of(random::file::setting(random), true),
        };
        let most = most_columns(how.rate).expect("one of the three rates");
        let has_many_lines = random.below(MANY_LINES) == 0;
        let mut columns = if has_many_lines {
            pages::many_columns(random)
        } else {
            pages::columns(random, most)
        };
        let mut flaws = flaws(random, has_many_lines);
        if flaws.contains(&19) {
            make_untellable(random, &mut columns);
        }
        let frames = image_frames(&columns, most).len();
        let octets = RECORD * (2 + frames) + END.len();
        let mut input = Input {
            bitmap: bitmap::written(&columns::page(&columns)),
            how,
            memory: Memory::random(random, octets, MORE),
        };
        for number in flaws.iter().rev() {
            input.spoil(random, *number);
        }
        if input.memory.room < octets {
            flaws.push(16);
        }
        (flaws, input)
    }

    /// Makes an input that is refused by the number, unless by one before it.
    fn spoil(&mut self, random: &mut Random, number: u64) {
        match number {
            20 => spoil_check_and_rate(random, &mut self.how),
            17 => spoilt_bitmap::spoil_by_17(random, &mut self.bitmap),
            18 => spoilt_bitmap::spoil_by_18(random, &mut self.bitmap),
            6 => spoil_settings(random, &mut self.how.settings),
            _ => {}
        }
    }
}

/// Some of the numbers, in the order in which they are judged. That of the room
/// is none of them.
fn flaws(random: &mut Random, has_many_lines: bool) -> Vec<u64> {
    if has_many_lines && random.chance(14) {
        return Vec::new();
    }
    let mut flaws = NUMBERS[..NUMBERS.len() - 1].to_vec();
    let number = random.pick(&[0, 0, 0, 0, 0, 0, 0, 1, 1, 1, 1, 2, 2, 2, 3, 5]);
    while flaws.len() > number {
        flaws.remove(random.below(flaws.len() as u64) as usize);
    }
    flaws
}

/// Makes a check setting or a rate that is not allowed, or both.
fn spoil_check_and_rate(random: &mut Random, how: &mut How) {
    let kind = random.below(8);
    if kind <= 1 {
        how.check.compare = 0;
    }
    if (2..=5).contains(&kind) {
        spoilt_check::spoil(random, &mut how.check);
    }
    if kind >= 5 {
        spoil_rate(random, &mut how.rate);
    }
}

/// Makes a rate that is none of the three, among them some that only look like
/// one of them when cut to fewer bits.
fn spoil_rate(random: &mut Random, rate: &mut u64) {
    let high = random.pick(&[1 << 16, 1 << 32, 1 << 63]);
    let any = random.number();
    *rate = match random.below(4) {
        0 => random.pick(&[0, 1, 24, 300, 1200, 7200, 19200, any | 1]),
        1 => *rate + 1,
        2 => *rate - 1,
        _ => *rate | high,
    };
}

/// Makes settings that are not allowed, among them some that only look allowed
/// when cut to fewer bits.
fn spoil_settings(random: &mut Random, settings: &mut u64) {
    let high = random.pick(&[1 << 4, 1 << 8, 1 << 16, 1 << 32, 1 << 63]);
    let any = random.number();
    *settings |= random.pick(&[0b1100, 0b0011, 0b1111, high, any | 1 << 4]);
}

impl fmt::Display for Input {
    fn fmt(&self, f: &mut fmt::Formatter) -> fmt::Result {
        let How {
            settings,
            rate,
            check,
        } = self.how;
        write!(
            f,
            "a bitmap of {} octets, settings {settings}, rate {rate}, {check}, {}",
            self.bitmap.len(),
            self.memory
        )
    }
}
