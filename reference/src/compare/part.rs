//! The call on one data part.

mod input;

use std::fmt;

use super::outcome::{self, Written};
use super::stops::{self, Stop, Stops};
use crate::part::{handed_in, read_part, read_part_fast, Part, StartHandedIn, OPEN};
use crate::random::Random;
use crate::refusal::{Refusal, NO_READING};
pub use input::{Input, Kind};

/// The call under test: sent octets, count and start, then the memory lent for
/// the columns and for the answer.
pub type ReadPart = fn(&[u8], u64, StartHandedIn, &mut [u8], &mut [u64; ANSWER]) -> u64;

/// One of the two references.
type Reference = fn(&[u8], u64, StartHandedIn, usize) -> Result<Part, Refusal>;

/// The numbers of an answer: bits, columns, end, black length, white length.
const ANSWER: usize = 5;

/// Of so many inputs or more, enough must be of each kind.
pub const ENOUGH: u64 = 1_000_000;

/// To so many at least each number must be given, 10 both for the state and for X.
const LEAST: u64 = 1000;

/// In so many at least a field length must fall only because a run ends at the
/// right edge.
const LEAST_AT_EDGE: u64 = 10_000;

/// Strings of at most so many bits are always given to the search as well.
const SHORT: u64 = 24;

/// Of the longer ones, one in so many.
const SEARCHED: u64 = 50;

/// Compares on `number` inputs, each made from the seed and its index alone.
pub fn compare(call: ReadPart, number: u64, seed: u64) -> Result<Tally, String> {
    let mut tally = Tally::default();
    for index in 0..number {
        let mut random = Random::of_input(index, seed);
        let (kind, input) = Input::random(&mut random);
        let search = input.count <= SHORT || index % SEARCHED == 0;
        let expected = check(call, &input, search)
            .map_err(|difference| format!("input {index}: {difference}"))?;
        tally.add(kind, &input, &expected);
    }
    tally.enough()
}

/// Compares on one input and gives the expected result.
pub fn check(call: ReadPart, input: &Input, search: bool) -> Result<Result<Part, Refusal>, String> {
    let replay = || format!("replay: reference/compare part-input {input}");
    let expected = read(input, read_part_fast);
    if search {
        let searched = read(input, read_part);
        if searched != expected {
            return Err(format!(
                "the search gives {searched:?}, looking ahead {expected:?}\n{}",
                replay()
            ));
        }
    }
    let written = expected.clone().map(|part| written(input, part));
    let difference = outcome::difference(input.memory, &written, |out, answer| {
        call(&input.octets, input.count, input.start, out, answer)
    });
    match difference {
        Some(difference) => Err(format!("{difference}\n{}", replay())),
        None => Ok(expected),
    }
}

/// Where an input stops that is refused so, if it has no reading.
fn stop(input: &Input, refusal: Refusal) -> Option<Stop> {
    let (start, bits) = handed_in(&input.octets, input.count, input.start).ok()?;
    (refusal.number == NO_READING).then(|| Stop::of(refusal, start, &bits))
}

/// What a reference makes of an input.
fn read(input: &Input, reference: Reference) -> Result<Part, Refusal> {
    reference(&input.octets, input.count, input.start, input.memory.room)
}

fn written(input: &Input, part: Part) -> Written<u8, ANSWER> {
    Written {
        answer: [
            input.count,
            part.columns.len() as u64,
            u64::from(part.end),
            part.black as u64,
            part.white as u64,
        ],
        items: part.columns,
    }
}

/// How many inputs of each kind there were, and what came of them.
#[derive(Debug, Default)]
pub struct Tally {
    kinds: [u64; 5],
    accepted: u64,
    open: u64,
    /// Those in which a field length fell only because a run ended at the right
    /// edge.
    fell_at_edge: u64,
    /// By the refusal's number.
    refused: [u64; 17],
    /// Those of 10 whose state is allowed.
    refused_by_x: u64,
    /// Those of 11.
    stops: Stops,
}

impl Tally {
    fn add(&mut self, kind: Kind, input: &Input, result: &Result<Part, Refusal>) {
        self.kinds[kind as usize] += 1;
        match result {
            Ok(part) => {
                self.accepted += 1;
                self.open += u64::from(part.end == OPEN);
                self.fell_at_edge += u64::from(!part.falls_at_edge.is_empty());
            }
            Err(refusal) => {
                self.refused[refusal.number as usize] += 1;
                self.refused_by_x += u64::from(refusal.number == 10 && input.start.state <= 3);
                if let Some(stop) = stop(input, *refusal) {
                    self.stops.add(stop);
                }
            }
        }
    }

    fn all(&self) -> u64 {
        self.kinds.iter().sum()
    }

    /// How many inputs there were of what there must be enough, each with its
    /// name. Those of 11 are counted by themselves.
    fn counts(&self) -> [(&'static str, u64); 6] {
        let [by_8, by_9, by_10, by_16] = [8, 9, 10, 16].map(|n| self.refused[n]);
        [
            ("fell at the right edge", self.fell_at_edge),
            ("refused by 8", by_8),
            ("by 9", by_9),
            ("by 10 for the state", by_10 - self.refused_by_x),
            ("by 10 for X", self.refused_by_x),
            ("by 16", by_16),
        ]
    }

    /// Of what there were too few.
    fn rare(&self, least: u64, least_at_edge: u64) -> Vec<&'static str> {
        let [fell, refused @ ..] = self.counts();
        let fell = (fell.1 < least_at_edge).then_some(fell.0);
        let refused = refused.into_iter().filter(|(_, times)| *times < least);
        fell.into_iter()
            .chain(refused.map(|(name, _)| name))
            .collect()
    }

    /// The tally, unless of enough inputs too few were of some kind.
    fn enough(self) -> Result<Tally, String> {
        let mut rare = self.rare(LEAST, LEAST_AT_EDGE);
        rare.extend(self.stops.rare(stops::LEAST, stops::LEAST_AT));
        if self.all() >= ENOUGH && !rare.is_empty() {
            return Err(format!("too few inputs: {} ({self})", rare.join(", ")));
        }
        Ok(self)
    }
}

impl fmt::Display for Tally {
    fn fmt(&self, f: &mut fmt::Formatter) -> fmt::Result {
        let [legal, other_x, turned, cut, noise] = self.kinds;
        let Tally { accepted, open, .. } = self;
        write!(
            f,
            "legal {legal}, legal from another X {other_x}, turned {turned}, cut {cut}, \
             noise {noise}; accepted {accepted}, of these open {open}"
        )?;
        for (name, times) in self.counts() {
            write!(f, ", {name}: {times}")?;
        }
        write!(f, ", {}", self.stops)
    }
}

#[cfg(test)]
mod tests {
    use super::*;
    use crate::part::lookahead;

    const SEED: u64 = 1;
    const NUMBER: u64 = 20_000;

    /// The call as it must be.
    fn right(
        octets: &[u8],
        count: u64,
        start: StartHandedIn,
        out: &mut [u8],
        answer: &mut [u64; ANSWER],
    ) -> u64 {
        match read_part_fast(octets, count, start, out.len()) {
            Ok(part) => {
                let columns = part.columns.len();
                out[..columns].copy_from_slice(&part.columns);
                answer[0] = count;
                answer[1] = columns as u64;
                answer[2] = u64::from(part.end);
                answer[3] = part.black as u64;
                answer[4] = part.white as u64;
                0
            }
            Err(refusal) => refusal.returned(),
        }
    }

    /// The start with X moved on by so many columns, if it is allowed.
    fn moved_on(start: StartHandedIn, columns: u64) -> StartHandedIn {
        match start.x {
            x @ 0..=1725 => StartHandedIn {
                x: (x + columns) % 1726,
                ..start
            },
            _ => start,
        }
    }

    /// Calls that are wrong in one small way.
    const WRONG: [(&str, ReadPart); 26] = [
        (
            "writes what it has room for",
            |octets, count, start, out, answer| {
                let returned = right(octets, count, start, out, answer);
                if returned == 16 && !out.is_empty() {
                    out[0] = !out[0];
                }
                returned
            },
        ),
        ("answers a refusal", |octets, count, start, out, answer| {
            let returned = right(octets, count, start, out, answer);
            if returned % 256 == NO_READING {
                answer[0] = count;
            }
            returned
        }),
        (
            "clears the rest of the room",
            |octets, count, start, out, answer| {
                let returned = right(octets, count, start, out, answer);
                if returned == 0 {
                    out[answer[1] as usize..].fill(0);
                }
                returned
            },
        ),
        (
            "takes an open column for BW",
            |octets, count, start, out, answer| {
                let returned = right(octets, count, start, out, answer);
                if returned == 0 && answer[2] == u64::from(OPEN) {
                    answer[2] = 0b10;
                }
                returned
            },
        ),
        (
            "answers the columns as bits",
            |octets, count, start, out, answer| {
                let returned = right(octets, count, start, out, answer);
                if returned == 0 {
                    answer[0] = answer[1];
                }
                returned
            },
        ),
        (
            "wants more room",
            |octets, count, start, out, answer| match read_part_fast(
                octets,
                count,
                start,
                out.len(),
            ) {
                Ok(part) if part.columns.len() == out.len() => 16,
                _ => right(octets, count, start, out, answer),
            },
        ),
        (
            "judges the state before 9",
            |octets, count, start, out, answer| match right(octets, count, start, out, answer) {
                9 if start.state > 3 => 10,
                returned => returned,
            },
        ),
        (
            "judges X before 9",
            |octets, count, start, out, answer| match right(octets, count, start, out, answer) {
                9 if start.x > 1725 => 10,
                returned => returned,
            },
        ),
        (
            "judges X before 8",
            |octets, count, start, out, answer| match right(octets, count, start, out, answer) {
                8 if start.x > 1725 => 10,
                returned => returned,
            },
        ),
        (
            "judges X after 11",
            |octets, count, start, out, answer| match right(octets, count, start, out, answer) {
                10 if start.x > 1725 => {
                    let other = StartHandedIn { x: 1725, ..start };
                    match read_part_fast(octets, count, other, usize::MAX) {
                        Err(refusal) => refusal.number,
                        Ok(_) => 10,
                    }
                }
                returned => returned,
            },
        ),
        (
            "judges X after 16",
            |octets, count, start, out, answer| match right(octets, count, start, out, answer) {
                10 if start.x > 1725 => {
                    let other = StartHandedIn { x: 1725, ..start };
                    match read_part_fast(octets, count, other, out.len()) {
                        Err(refusal) if refusal.number == 16 => 16,
                        _ => 10,
                    }
                }
                returned => returned,
            },
        ),
        (
            "refuses an X above 1725 by 9",
            |octets, count, start, out, answer| match right(octets, count, start, out, answer) {
                10 if start.x > 1725 => 9,
                returned => returned,
            },
        ),
        (
            "refuses X 1725",
            |octets, count, start, out, answer| match right(octets, count, start, out, answer) {
                0 if start.x == 1725 => 10,
                returned => returned,
            },
        ),
        (
            "takes an X above 1725",
            |octets, count, start, out, answer| {
                let x = start.x % 1726;
                right(octets, count, StartHandedIn { x, ..start }, out, answer)
            },
        ),
        ("cuts X to 12 bits", |octets, count, start, out, answer| {
            let x = start.x % 4096;
            right(octets, count, StartHandedIn { x, ..start }, out, answer)
        }),
        (
            "cuts the state to an octet",
            |octets, count, start, out, answer| {
                let state = start.state & 0xFF;
                right(octets, count, StartHandedIn { state, ..start }, out, answer)
            },
        ),
        // These test at another column, or not at the right edge.
        ("tests at column 0", |octets, count, start, out, answer| {
            right(octets, count, moved_on(start, 1725), out, answer)
        }),
        (
            "tests at column 1724",
            |octets, count, start, out, answer| {
                right(octets, count, moved_on(start, 1), out, answer)
            },
        ),
        (
            "forgets the right edge",
            |octets, count, start, out, answer| match read_part_fast(
                octets,
                count,
                start,
                out.len(),
            ) {
                Ok(part) if !part.falls_at_edge.is_empty() => 11,
                _ => right(octets, count, start, out, answer),
            },
        ),
        (
            "takes every X for 1725",
            |octets, count, start, out, answer| match start.x {
                0..=1725 => right(
                    octets,
                    count,
                    StartHandedIn { x: 1725, ..start },
                    out,
                    answer,
                ),
                _ => right(octets, count, start, out, answer),
            },
        ),
        ("tells no bit", |octets, count, start, out, answer| {
            right(octets, count, start, out, answer) % 256
        }),
        (
            "cuts the bit to an octet",
            |octets, count, start, out, answer| {
                right(octets, count, start, out, answer) % (1 << 16)
            },
        ),
        (
            "stops where looking ahead does",
            |octets, count, start, out, answer| match right(octets, count, start, out, answer) {
                returned if returned % 256 == NO_READING => {
                    let (start, bits) = handed_in(octets, count, start).expect("judged");
                    let consumed = lookahead::decode(start, &bits).expect_err("no reading");
                    Refusal::no_reading(consumed).returned()
                }
                returned => returned,
            },
        ),
        (
            "tells the columns that it laid",
            |octets, count, start, out, answer| match right(octets, count, start, out, answer) {
                returned if returned % 256 == NO_READING => {
                    let beginning = read_part_fast(octets, returned >> 8, start, usize::MAX);
                    Refusal::no_reading(beginning.expect("a reading").columns.len()).returned()
                }
                returned => returned,
            },
        ),
        (
            "tells a bit with other numbers",
            |octets, count, start, out, answer| match right(octets, count, start, out, answer) {
                returned @ 1..256 if returned != NO_READING => returned + 256,
                returned => returned,
            },
        ),
        (
            "names a record",
            |octets, count, start, out, answer| match right(octets, count, start, out, answer) {
                0 => 0,
                number => number + (1 << 24),
            },
        ),
    ];

    #[test]
    fn the_right_call_agrees() {
        let tally = compare(right, NUMBER, SEED).expect("no difference");
        assert_eq!(tally.all(), NUMBER);
        assert!(tally.kinds.iter().all(|kind| *kind > NUMBER / 16));
        assert!(tally.accepted > NUMBER / 4 && tally.open > NUMBER / 64);
        let rare = tally.rare(NUMBER / 256, NUMBER / 32);
        assert!(rare.is_empty(), "{tally}");
        let rare = tally.stops.rare(NUMBER / 8, NUMBER / 64);
        assert!(rare.is_empty(), "{tally}");
    }

    #[test]
    fn too_few_of_a_kind_fail_a_long_run() {
        const STOPS: u64 = stops::LEAST;
        let tally = |all, fell_at_edge, refused_by_x, stops| {
            let mut tally = Tally::default();
            tally.kinds[0] = all;
            tally.fell_at_edge = fell_at_edge;
            tally.refused = [2 * LEAST; 17];
            tally.refused_by_x = refused_by_x;
            tally.stops = Stops::of_each(stops);
            tally.enough()
        };
        assert!(tally(ENOUGH, LEAST_AT_EDGE, LEAST, STOPS).is_ok());
        assert!(tally(ENOUGH - 1, 0, 0, 0).is_ok());
        let failed = |edge, x, stops| tally(ENOUGH, edge, x, stops).expect_err("too few");
        let [edge, by_x, by_state, stop] = [
            failed(LEAST_AT_EDGE - 1, LEAST, STOPS),
            failed(LEAST_AT_EDGE, LEAST - 1, STOPS),
            failed(LEAST_AT_EDGE, LEAST + 1, STOPS),
            failed(LEAST_AT_EDGE, LEAST, STOPS - 1),
        ];
        assert!(edge.starts_with("too few inputs: fell at the right edge ("));
        assert!(by_x.starts_with("too few inputs: by 10 for X ("));
        assert!(by_state.starts_with("too few inputs: by 10 for the state ("));
        assert!(stop.starts_with("too few inputs: by 11 ("));
    }

    #[test]
    fn wrong_calls_differ_and_differ_again_when_replayed() {
        for (name, wrong) in WRONG {
            let difference = compare(wrong, NUMBER, SEED).expect_err(name);
            let (_, words) = difference.split_once("part-input ").expect("a replay");
            let words: Vec<String> = words.split(' ').map(String::from).collect();
            let input = Input::from_words(&words).expect("words of an input");
            assert!(check(right, &input, true).is_ok());
            assert!(check(wrong, &input, true).is_err(), "{name}");
        }
    }

    #[test]
    fn inputs_read_back_as_shown() {
        let mut random = Random::new(SEED);
        for _ in 0..1000 {
            let (_, input) = Input::random(&mut random);
            let words: Vec<String> = input.to_string().split(' ').map(String::from).collect();
            assert_eq!(Input::from_words(&words), Some(input));
        }
    }
}
