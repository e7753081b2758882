//! The calls on raw captures: the one that finds frames, and the one that gives
//! the frames of a list as a page file.

mod input;
mod kinds;

use std::collections::BTreeMap;
use std::fmt;

use super::counts::Counts;
use super::outcome::{self, Written};
use crate::capture::{find_frames, records_of_frames};
use crate::random::Random;
use crate::refusal::{self, Refusal};
use crate::register::HandedIn;
use input::{Extraction, Search};

/// A capture and a check setting, then the memory lent for the list and for the
/// answer.
pub type FindFrames = fn(&[u8], HandedIn, &mut [u64], &mut [u64; 1]) -> u64;

/// A capture and a list, then the memory lent for the file and for the answer.
pub type RecordsOfCapture = fn(&[u8], &[u64], &mut [u8], &mut [u64; 1]) -> u64;

#[derive(Clone, Copy)]
pub struct Calls {
    /// The answer: the frames.
    pub find_frames: FindFrames,
    /// The answer: the octets written.
    pub records_of_capture: RecordsOfCapture,
}

/// The numbers that the calls may give, each in the order in which it judges.
const OF_SEARCH: [u64; 2] = [20, 16];
const OF_EXTRACTION: [u64; 2] = [25, 16];

/// Of so many inputs or more, enough must be of each kind.
pub const ENOUGH: u64 = 100_000;

/// So often at least must each call give each number.
const LEAST: u64 = 1000;

/// So many at least must be of each kind.
const LEAST_OF_KIND: u64 = 100;

/// Compares on `number` inputs, each made from the seed and its index alone.
pub fn compare(calls: Calls, number: u64, seed: u64) -> Result<Tally, String> {
    let mut tally = Tally::default();
    for index in 0..number {
        tally.add(&check(calls, index, seed)?);
    }
    tally.enough()
}

/// Compares on one input and tells what came of it.
pub fn check(calls: Calls, index: u64, seed: u64) -> Result<Seen, String> {
    let mut random = Random::of_input(index, seed);
    let checked = match random.below(2) {
        0 => check_search(calls.find_frames, &mut random),
        _ => check_extraction(calls.records_of_capture, &mut random),
    };
    checked.map_err(|difference| {
        format!(
            "input {index}: {difference}\nreplay: reference/compare frames-input {index} {seed}"
        )
    })
}

fn check_search(call: FindFrames, random: &mut Random) -> Result<Seen, String> {
    let input = Search::random(random);
    let expected = expected_list(&input);
    let difference = outcome::difference(input.memory, &expected, |list, answer| {
        call(&input.octets, input.check, list, answer)
    });
    match difference {
        Some(difference) => Err(format!("{difference}; {input}")),
        None => Ok(Seen {
            about: About::Search,
            spoilt: input.is_spoilt(),
            number: refusal::number(&expected),
            kinds: kinds::of_search(&input, &expected),
        }),
    }
}

fn check_extraction(call: RecordsOfCapture, random: &mut Random) -> Result<Seen, String> {
    let input = Extraction::random(random);
    let expected = expected_file(&input);
    let difference = outcome::difference(input.memory, &expected, |out, answer| {
        call(&input.octets, &input.list, out, answer)
    });
    match difference {
        Some(difference) => Err(format!("{difference}; {input}")),
        None => Ok(Seen {
            about: About::Extraction,
            spoilt: input.spoilt,
            number: refusal::number(&expected),
            kinds: kinds::of_extraction(&input, &expected),
        }),
    }
}

/// What the reference makes of an input.
fn expected_list(input: &Search) -> Result<Written<u64, 1>, Refusal> {
    let list = find_frames(&input.octets, input.check, input.memory.room)?;
    Ok(Written {
        answer: [list.len() as u64 / 2],
        items: list,
    })
}

fn expected_file(input: &Extraction) -> Result<Written<u8, 1>, Refusal> {
    let file = records_of_frames(&input.octets, &input.list, input.memory.room)?;
    Ok(Written {
        answer: [file.len() as u64],
        items: file,
    })
}

#[derive(Clone, Copy, Debug, PartialEq, Eq)]
enum About {
    Search,
    Extraction,
}

/// What came of an input.
#[derive(Clone, Debug)]
pub struct Seen {
    about: About,
    spoilt: bool,
    /// The refusal's number or 0.
    number: u64,
    kinds: Vec<&'static str>,
}

/// How many inputs there were, and what came of them.
#[derive(Debug, Default)]
pub struct Tally {
    searches: Counts,
    extractions: Counts,
    of_searches: BTreeMap<&'static str, u64>,
    of_extractions: BTreeMap<&'static str, u64>,
}

impl Tally {
    fn add(&mut self, seen: &Seen) {
        let (counts, kinds) = match seen.about {
            About::Search => (&mut self.searches, &mut self.of_searches),
            About::Extraction => (&mut self.extractions, &mut self.of_extractions),
        };
        counts.add(seen.spoilt, seen.number);
        for kind in &seen.kinds {
            *kinds.entry(kind).or_default() += 1;
        }
    }

    /// The tally, unless of enough inputs too few were of some kind.
    fn enough(self) -> Result<Tally, String> {
        let rare = self.rare(LEAST, LEAST_OF_KIND);
        let all = self.searches.all + self.extractions.all;
        if all >= ENOUGH && !rare.is_empty() {
            return Err(format!("too few inputs: {} ({self})", rare.join(", ")));
        }
        Ok(self)
    }

    /// Of what there were too few, in words.
    fn rare(&self, least: u64, least_of_kind: u64) -> Vec<String> {
        let numbers = |counts: &Counts, numbers: [u64; 2], of: &str| {
            let rare = counts.rare(numbers.map(|n| n as usize), least);
            let words = rare
                .iter()
                .map(|number| format!("{of} refused by {number}"));
            words.collect::<Vec<String>>()
        };
        let kinds = self.of_kinds().into_iter().flatten();
        let kinds = kinds.filter(|(_, times)| *times < least_of_kind);
        let mut rare = numbers(&self.searches, OF_SEARCH, "searches");
        rare.extend(numbers(&self.extractions, OF_EXTRACTION, "extractions"));
        rare.extend(kinds.map(|(kind, _)| kind.to_string()));
        rare
    }

    /// How many inputs there were of each kind, of searches and of extractions.
    fn of_kinds(&self) -> [Vec<(&'static str, u64)>; 2] {
        let of = |kinds: Vec<&'static str>, seen: &BTreeMap<&'static str, u64>| {
            let times = |kind| seen.get(kind).copied().unwrap_or(0);
            kinds.iter().map(|kind| (*kind, times(kind))).collect()
        };
        [
            of(kinds::all_of_search(), &self.of_searches),
            of(kinds::all_of_extraction(), &self.of_extractions),
        ]
    }
}

impl fmt::Display for Tally {
    fn fmt(&self, f: &mut fmt::Formatter) -> fmt::Result {
        let [searches, extractions] = self.of_kinds().map(|kinds| {
            let words = kinds.iter().map(|(kind, n)| format!("{kind}: {n}"));
            words.collect::<Vec<String>>().join(", ")
        });
        write!(
            f,
            "searches {}; {searches}; extractions {}; {extractions}",
            self.searches, self.extractions
        )
    }
}

#[cfg(test)]
mod tests;
