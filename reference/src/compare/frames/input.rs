//! Random inputs of the calls on raw captures.

use std::fmt;

use crate::capture::{bits, list, starts, FRAME};
use crate::compare::outcome::Memory;
use crate::compare::spoilt_check;
use crate::file::{END, RECORD};
use crate::random::{self, Random};
use crate::register::{HandedIn, Setting};

/// A capture in which frames are looked for.
#[derive(Clone, Debug, PartialEq, Eq)]
pub struct Search {
    pub octets: Vec<u8>,
    /// What the capture was made by.
    pub setting: Setting,
    pub check: HandedIn,
    pub memory: Memory,
    /// Where frames stand by the setting that the capture was made by.
    pub starts: Vec<usize>,
}

/// At most so many numbers or octets of room are lent that are not needed.
const MORE: u64 = 1024;

impl Search {
    /// A search with about the room for what is found by an allowed setting, so
    /// that a call which writes before it refuses is seen to write.
    pub fn random(random: &mut Random) -> Search {
        let setting = random::file::setting(random);
        let octets = random::capture::capture(random, setting);
        let starts = starts(&bits(&octets), setting);
        let mut check = HandedIn::of(setting, true);
        match random.below(16) {
            0 => check.compare = 0,
            1 => spoilt_check::spoil(random, &mut check),
            _ => {}
        }
        let mut memory = Memory::random(random, 2 * starts.len(), MORE);
        if random.chance(4) {
            let suffices = most_numbers(&octets);
            let about = [suffices, suffices.saturating_sub(1), suffices + 1];
            memory.room = random.pick(&about);
        }
        Search {
            octets,
            setting,
            check,
            memory,
            starts,
        }
    }

    pub fn is_spoilt(&self) -> bool {
        self.check != HandedIn::of(self.setting, true)
    }
}

/// The numbers of a list that suffices for any capture of so many octets.
pub fn most_numbers(octets: &[u8]) -> usize {
    2 * (8 * octets.len() / FRAME)
}

impl fmt::Display for Search {
    fn fmt(&self, f: &mut fmt::Formatter) -> fmt::Result {
        let Search {
            octets,
            check,
            memory,
            starts,
            ..
        } = self;
        write!(
            f,
            "a capture of {} octets, {check}, {memory}, frames by its own setting at the bits {starts:?}",
            octets.len()
        )
    }
}

/// A capture and a list of the frames that are wanted of it.
#[derive(Clone, Debug, PartialEq, Eq)]
pub struct Extraction {
    pub octets: Vec<u8>,
    pub list: Vec<u64>,
    pub memory: Memory,
    /// Whether an entry was made to be outside the capture.
    pub spoilt: bool,
}

impl Extraction {
    pub fn random(random: &mut Random) -> Extraction {
        let setting = random::file::setting(random);
        let octets = random::capture::capture(random, setting);
        let length = 8 * octets.len();
        let mut list = match random.below(8) {
            _ if length < FRAME => Vec::new(),
            0..=3 => list(&starts(&bits(&octets), setting)),
            4..=6 => {
                let number = random.pick(&[0, 1, 2, 3, 8, 20]);
                let places: Vec<usize> = (0..number)
                    .map(|_| random::capture::place(random, length))
                    .collect();
                list(&places)
            }
            _ => {
                let mut list = list(&starts(&bits(&octets), setting));
                let place = random::capture::place(random, length);
                list.extend(self::list(&[place]));
                let by = random.below(list.len() as u64 / 2) as usize;
                list.rotate_left(2 * by);
                list
            }
        };
        let spoilt = random.chance(5);
        if spoilt {
            for _ in 0..random.pick(&[1, 1, 1, 2, 5]) {
                spoil(random, octets.len() as u64, &mut list);
            }
        }
        let file = RECORD * (list.len() / 2) + END.len();
        if random.chance(3) {
            // A number behind the last whole entry.
            let any = random.number();
            list.push(random.pick(&[0, 7, octets.len() as u64, 1 << 61, u64::MAX, any]));
        }
        let memory = Memory::random(random, file, MORE);
        Extraction {
            octets,
            list,
            memory,
            spoilt,
        }
    }
}

/// Puts an entry that is outside a capture of so many octets over one that is
/// there, or behind all.
fn spoil(random: &mut Random, octets: u64, list: &mut Vec<u64>) {
    let entries = list.len() as u64 / 2;
    let any = random.below(entries.max(1));
    let at = 2 * random.pick(&[0, any, entries.saturating_sub(1), entries]) as usize;
    let old = match list.get(at..at + 2) {
        Some(entry) => [entry[0], entry[1]],
        None => [0, 0],
    };
    let entry = outside(random, octets, old);
    if at == list.len() {
        list.extend(entry);
    } else {
        list[at..at + 2].copy_from_slice(&entry);
    }
}

/// An entry that is outside a capture of so many octets, among them some that
/// only look allowed when cut to fewer bits.
fn outside(random: &mut Random, octets: u64, [octet, bit]: [u64; 2]) -> [u64; 2] {
    let any = random.number();
    let some = random.below(100);
    let frame = FRAME as u64;
    match random.below(8) {
        0 => [octet, random.pick(&[8, 9, 15, 16, 255, 256])],
        1 => {
            let high = random.pick(&[1 << 3, 1 << 8, 1 << 16, 1 << 32, 1 << 63]);
            [octet, bit | high]
        }
        2 => [octet, random.pick(&[u64::MAX, u64::MAX - 584, any | 8])],
        3 if 8 * octets >= frame - 1 => {
            let start = 8 * octets - (frame - 1);
            [start / 8, start % 8]
        }
        4 => {
            let left = random.below(frame.min(8 * octets + 1));
            let start = 8 * octets - left;
            [start / 8, start % 8]
        }
        5 => {
            let octet = octets + random.pick(&[0, 1, some]);
            random.pick(&[[octet, bit], [octet, 0]])
        }
        6 => {
            let high = random.pick(&[1 << 32, 1 << 60, 1 << 61, 1 << 62, 1 << 63]);
            [octet | high, bit]
        }
        _ => {
            let back = random.pick(&[0, 1, some]);
            let octet = random.pick(&[u64::MAX - back, (1 << 61) - 1 - back, any | 1 << 60]);
            [octet, random.pick(&[bit, 7, 8, u64::MAX])]
        }
    }
}

impl fmt::Display for Extraction {
    fn fmt(&self, f: &mut fmt::Formatter) -> fmt::Result {
        let Extraction {
            octets,
            list,
            memory,
            ..
        } = self;
        write!(
            f,
            "a capture of {} octets, {memory}, the list {list:?}",
            octets.len()
        )
    }
}
