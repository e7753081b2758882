//! Random inputs of the call on a page file.

use std::fmt;

use super::{spoilt_octets, spoilt_pages, spoilt_records};
use crate::compare::lent::Item;
use crate::compare::outcome::Memory;
use crate::compare::spoilt_check;
use crate::file::{stored, DATA, END};
use crate::page::bitmap::{HEADER, LINE};
use crate::page::{LINES, PELS};
use crate::random::{self, Random};
use crate::register::{HandedIn, Setting};

#[derive(Clone, Debug, PartialEq, Eq)]
pub struct Input {
    pub file: Vec<u8>,
    pub check: HandedIn,
    pub memory: Memory,
}

/// Where a file is spoilt, if it is.
#[derive(Clone, Copy, PartialEq, Eq)]
enum Flaw {
    None,
    Page,
    Records,
    /// The data of one image frame.
    Part,
    Octets,
    Check,
}

/// One page in so many has about the most lines. They take long.
const MANY_LINES: u64 = 80;

/// At most so many octets of room are lent that are not needed.
const MORE: u64 = 4096;

impl Input {
    /// A file, and whether it was spoilt. What is spoilt has room for the page
    /// that it was, so that a call which writes before it refuses is seen to
    /// write.
    pub fn random(random: &mut Random) -> (bool, Input) {
        let has_many_lines = random.below(MANY_LINES) == 0;
        let columns = if has_many_lines {
            random::columns::many_columns(random)
        } else {
            random::columns::columns(random)
        };
        let flaws = flaws(random, has_many_lines);
        let lines = 2 * columns.len() / PELS;
        let (check, setting) = check(random, &flaws);
        let input = Input {
            file: file(random, columns, setting, &flaws),
            check,
            memory: Memory::random(random, HEADER + LINE * lines, MORE),
        };
        (lines > LINES || flaws != [Flaw::None; 2], input)
    }
}

/// One flaw, none, or seldom two.
fn flaws(random: &mut Random, has_many_lines: bool) -> [Flaw; 2] {
    if has_many_lines && random.chance(14) {
        return [Flaw::None; 2];
    }
    let first = flaw(random);
    match random.below(8) {
        0 => [first, flaw(random)],
        _ => [first, Flaw::None],
    }
}

fn flaw(random: &mut Random) -> Flaw {
    match random.below(18) {
        0..=5 => Flaw::None,
        6..=8 => Flaw::Page,
        9..=12 => Flaw::Records,
        13..=14 => Flaw::Part,
        15..=16 => Flaw::Octets,
        _ => Flaw::Check,
    }
}

/// The check as it is handed in, and the setting that the file is made by.
fn check(random: &mut Random, flaws: &[Flaw]) -> (HandedIn, Setting) {
    let setting = random::file::setting(random);
    let compare = random.chance(12);
    let mut check = HandedIn::of(setting, compare);
    if flaws.contains(&Flaw::Check) {
        spoilt_check::spoil(random, &mut check);
    }
    if compare || random.chance(8) {
        (check, setting)
    } else {
        (check, random::file::setting(random))
    }
}

fn file(random: &mut Random, columns: Vec<u8>, setting: Setting, flaws: &[Flaw]) -> Vec<u8> {
    let frames = if flaws.contains(&Flaw::Page) {
        spoilt_pages::spoilt(random, columns)
    } else {
        random::file::image_frames(random, &columns)
    };
    let settings = random::file::settings(random);
    let mut records = random::file::records(random, settings, &frames);
    // Before the headers are spoilt that the data is read by.
    if flaws.contains(&Flaw::Part) {
        spoilt_records::spoil_part(random, &mut records);
    }
    if flaws.contains(&Flaw::Records) {
        spoilt_records::spoil(random, &mut records);
    }
    let mut file = stored(&records, setting);
    if flaws.contains(&Flaw::Octets) {
        spoilt_octets::spoil(random, &mut file);
    } else if random.chance(4) {
        file.extend(after_end(random));
    }
    file
}

/// Octets that are not read, unless the end is missing.
fn after_end(random: &mut Random) -> Vec<u8> {
    let number = 1 + random.below(200) as usize;
    let mut octets = u8::some(random, number);
    match random.below(4) {
        0 => octets.splice(..0, END),
        1 => octets.splice(..0, DATA),
        _ => return octets,
    };
    octets
}

impl fmt::Display for Input {
    fn fmt(&self, f: &mut fmt::Formatter) -> fmt::Result {
        let octets = self.file.len();
        write!(
            f,
            "a file of {octets} octets, {}, {}",
            self.check, self.memory
        )
    }
}
