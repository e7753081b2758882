//! Random inputs of the calls between bitmaps and run words.

use std::fmt::{self, Display};

use super::spoilt_words;
use crate::compare::outcome::Memory;
use crate::compare::spoilt_bitmap;
use crate::page::bitmap::{self, HEADER, LINE};
use crate::page::words;
use crate::random::{self, Random};

#[derive(Clone, Debug, PartialEq, Eq)]
pub struct Input<T> {
    /// What the call reads.
    pub lent: Vec<T>,
    pub memory: Memory,
}

/// The items shown of an input that has more.
const SHOWN: usize = 32;

/// At most so many items of room are lent that are not needed.
const MORE: u64 = 4096;

// What is spoilt has room for the page that it was, so that a call which writes
// before it refuses is seen to write.

impl Input<u8> {
    /// A bitmap, and whether it was spoilt.
    pub fn bitmap(random: &mut Random) -> (bool, Input<u8>) {
        let page = random::page::page(random);
        let mut lent = bitmap::written(&page);
        let spoilt = random.chance(8);
        if spoilt {
            spoilt_bitmap::spoil(random, &mut lent);
        }
        let words = words::written(&page).len();
        let memory = Memory::random(random, words, MORE);
        (spoilt, Input { lent, memory })
    }
}

impl Input<i16> {
    /// Run words, and whether they were spoilt.
    pub fn words(random: &mut Random) -> (bool, Input<i16>) {
        let page = random::page::page(random);
        let lines: Vec<Vec<i16>> = page.iter().map(words::runs).collect();
        let spoilt = random.chance(10);
        let lent = if spoilt {
            spoilt_words::spoilt(random, lines)
        } else {
            spoilt_words::legal(random, lines)
        };
        // Some of the changed words are those of another page.
        let lines = match words::read(&lent) {
            Ok((other, _)) => other.len(),
            Err(_) => page.len(),
        };
        let memory = Memory::random(random, HEADER + LINE * lines, MORE);
        (spoilt, Input { lent, memory })
    }
}

impl<T: Display> Display for Input<T> {
    fn fmt(&self, f: &mut fmt::Formatter) -> fmt::Result {
        write!(f, "{}, {} items lent:", self.memory, self.lent.len())?;
        for item in self.lent.iter().take(SHOWN) {
            write!(f, " {item}")?;
        }
        if self.lent.len() > SHOWN {
            write!(f, " ...")?;
        }
        Ok(())
    }
}
