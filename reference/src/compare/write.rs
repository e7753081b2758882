//! The call that writes a page file.

mod input;
mod pages;
mod shapes;

use std::collections::BTreeMap;
use std::fmt;

use super::counts::Counts;
use super::outcome::{self, Written};
use crate::file::read::read_page;
use crate::file::write::{most_columns, write_page};
use crate::page::{bitmap, columns};
use crate::random::Random;
use crate::refusal::{self, Refusal};
use crate::register::HandedIn;
use input::Input;
use shapes::SHAPES;

/// How a page is to be written.
#[derive(Clone, Copy, Debug, PartialEq, Eq)]
pub struct How {
    pub settings: u64,
    pub rate: u64,
    pub check: HandedIn,
}

/// The call under test: a bitmap, how to write it, then the memory lent for the
/// file and for the answer.
pub type WritePage = fn(&[u8], How, &mut [u8], &mut [u64; ANSWER]) -> u64;

/// The numbers of an answer: octets written.
const ANSWER: usize = 1;

/// The numbers that the call may give, in the order in which it judges.
const NUMBERS: [u64; 6] = [20, 17, 18, 6, 19, 16];

/// Of so many inputs or more, enough must be of each kind.
pub const ENOUGH: u64 = 100_000;

/// To so many at least each number must be given.
const LEAST: u64 = 1000;

/// So many at least must be of each other kind.
const LEAST_OF_KIND: u64 = 100;

/// Compares on `number` inputs, each made from the seed and its index alone.
pub fn compare(call: WritePage, number: u64, seed: u64) -> Result<Tally, String> {
    let mut tally = Tally::default();
    for index in 0..number {
        tally.add(&check(call, index, seed)?);
    }
    tally.enough()
}

/// Compares on one input and tells what came of it.
pub fn check(call: WritePage, index: u64, seed: u64) -> Result<Seen, String> {
    let (flaws, input) = Input::random(&mut Random::of_input(index, seed));
    let expected = expected(&input);
    match difference(call, &input, &expected) {
        Some(difference) => Err(format!(
            "input {index}: {difference}; {input}\n\
             replay: reference/compare write-input {index} {seed}"
        )),
        None => Ok(Seen {
            flaws,
            number: refusal::number(&expected),
            shapes: shapes_if_accepted(&input, &expected),
        }),
    }
}

/// What the reference makes of an input.
fn expected(input: &Input) -> Result<Written<u8, ANSWER>, Refusal> {
    let How {
        settings,
        rate,
        check,
    } = input.how;
    let file = write_page(&input.bitmap, settings, rate, check, input.memory.room)?;
    Ok(Written {
        answer: [file.len() as u64],
        items: file,
    })
}

fn difference(
    call: WritePage,
    input: &Input,
    expected: &Result<Written<u8, ANSWER>, Refusal>,
) -> Option<String> {
    let difference = outcome::difference(input.memory, expected, |out, answer| {
        call(&input.bitmap, input.how, out, answer)
    });
    difference.or_else(|| match expected {
        Ok(written) if !reads_back(input, &written.items) => {
            Some("the reference's file read back differs".to_string())
        }
        _ => None,
    })
}

fn reads_back(input: &Input, file: &[u8]) -> bool {
    let read = read_page(file, input.how.check, input.bitmap.len());
    read.is_ok_and(|read| {
        read.bitmap == input.bitmap
            && read.settings == input.how.settings
            && read.used == file.len()
    })
}

fn shapes_if_accepted<T>(input: &Input, expected: &Result<T, Refusal>) -> Vec<&'static str> {
    match (
        expected,
        bitmap::read(&input.bitmap),
        most_columns(input.how.rate),
    ) {
        (Ok(_), Ok(page), Some(most)) => shapes::of(&columns::of(&page), most),
        _ => Vec::new(),
    }
}

/// What came of an input.
#[derive(Clone, Debug)]
pub struct Seen {
    /// The numbers that it was made to be refused by, in order.
    flaws: Vec<u64>,
    /// The refusal's number or 0.
    number: u64,
    /// The shapes of the page if it was accepted.
    shapes: Vec<&'static str>,
}

impl Seen {
    /// The kinds that the input is of.
    fn kinds(&self) -> impl Iterator<Item = String> + '_ {
        let later = self.flaws.iter().skip(1);
        let pairs = later.map(|later| before(self.number, *later));
        pairs.chain(self.shapes.iter().map(|name| name.to_string()))
    }
}

/// All kinds of inputs: those refused by one number before a later one, and
/// those of a shape.
fn kinds() -> impl Iterator<Item = String> {
    let pairs = (0..NUMBERS.len()).flat_map(|i| {
        let later = NUMBERS[i + 1..].iter();
        later.map(move |later| before(NUMBERS[i], *later))
    });
    pairs.chain(SHAPES.iter().map(|(name, _)| name.to_string()))
}

fn before(number: u64, later: u64) -> String {
    format!("{number} before {later}")
}

/// How many inputs there were, and what came of them.
#[derive(Debug, Default)]
pub struct Tally {
    counts: Counts,
    kinds: BTreeMap<String, u64>,
}

impl Tally {
    fn add(&mut self, seen: &Seen) {
        let spoilt = seen.flaws.iter().any(|number| *number != 16);
        self.counts.add(spoilt, seen.number);
        for kind in seen.kinds() {
            *self.kinds.entry(kind).or_default() += 1;
        }
    }

    /// How many inputs there were of each kind.
    fn of_kinds(&self) -> impl Iterator<Item = (String, u64)> + '_ {
        kinds().map(|kind| {
            let times = self.kinds.get(&kind).copied();
            (kind, times.unwrap_or(0))
        })
    }

    /// The tally, unless of enough inputs too few were of some kind.
    fn enough(self) -> Result<Tally, String> {
        let rare = self.rare(LEAST, LEAST_OF_KIND);
        if self.counts.all >= ENOUGH && !rare.is_empty() {
            return Err(format!("too few inputs: {} ({self})", rare.join(", ")));
        }
        Ok(self)
    }

    /// Of what there were too few, in words.
    fn rare(&self, least: u64, least_of_kind: u64) -> Vec<String> {
        let numbers = self.counts.rare(NUMBERS.map(|n| n as usize), least);
        let numbers = numbers.iter().map(|number| format!("refused by {number}"));
        let kinds = self.of_kinds().filter(|(_, times)| *times < least_of_kind);
        numbers.chain(kinds.map(|(kind, _)| kind)).collect()
    }
}

impl fmt::Display for Tally {
    fn fmt(&self, f: &mut fmt::Formatter) -> fmt::Result {
        let kinds = self.of_kinds();
        let kinds: Vec<String> = kinds.map(|(kind, n)| format!("{kind}: {n}")).collect();
        write!(f, "pages {}; {}", self.counts, kinds.join(", "))
    }
}

#[cfg(test)]
mod tests;
