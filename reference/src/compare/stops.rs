//! Where data parts that have no reading stop, and how many of them were seen to.

use std::fmt;

use crate::part::{lookahead, Start};
use crate::refusal::Refusal;

/// So many data parts at least must have no reading in a long comparison.
pub const LEAST: u64 = 10_000;

/// So many at least of them must stop at each kind of place.
pub const LEAST_AT: u64 = 1000;

/// Where a data part stops.
#[derive(Clone, Copy, Debug)]
pub struct Stop {
    /// The length of its longest beginning that has a reading.
    bit: u64,
    /// Whether the decoder that looks ahead does not come so far: in the whole the
    /// last bit of that beginning is not the step that it is by itself.
    pub is_read_otherwise: bool,
}

impl Stop {
    /// Where bits stop that have no reading from a start and are refused so.
    pub fn of(refusal: Refusal, start: Start, bits: &[u8]) -> Stop {
        let consumed = lookahead::decode(start, bits).expect_err("the bits have no reading");
        Stop {
            bit: refusal.bit,
            is_read_otherwise: consumed as u64 != refusal.bit,
        }
    }
}

/// How many data parts had no reading.
#[derive(Debug, Default)]
pub struct Stops {
    all: u64,
    at_0: u64,
    /// Up to bit 255, and from there on.
    early: u64,
    late: u64,
    read_otherwise: u64,
}

impl Stops {
    pub fn add(&mut self, stop: Stop) {
        self.all += 1;
        *match stop.bit {
            0 => &mut self.at_0,
            1..=255 => &mut self.early,
            _ => &mut self.late,
        } += 1;
        self.read_otherwise += u64::from(stop.is_read_otherwise);
    }

    /// How many there were of what there must be enough, each with its name.
    pub fn counts(&self) -> [(&'static str, u64); 5] {
        [
            ("by 11", self.all),
            ("at bit 0", self.at_0),
            ("at bit 1 to 255", self.early),
            ("at bit 256 to 511", self.late),
            (
                "where the longest beginning is read otherwise",
                self.read_otherwise,
            ),
        ]
    }

    /// So many of each, whether or not they can be.
    #[cfg(test)]
    pub fn of_each(times: u64) -> Stops {
        Stops {
            all: times,
            at_0: times,
            early: times,
            late: times,
            read_otherwise: times,
        }
    }

    /// Of what there were too few.
    pub fn rare(&self, least: u64, least_at: u64) -> Vec<&'static str> {
        let [all, places @ ..] = self.counts();
        let all = (all.1 < least).then_some(all.0);
        let places = places.into_iter().filter(|(_, times)| *times < least_at);
        all.into_iter()
            .chain(places.map(|(name, _)| name))
            .collect()
    }
}

impl fmt::Display for Stops {
    fn fmt(&self, f: &mut fmt::Formatter) -> fmt::Result {
        for (i, (name, times)) in self.counts().into_iter().enumerate() {
            let before = if i == 0 { "" } else { ", " };
            write!(f, "{before}{name}: {times}")?;
        }
        Ok(())
    }
}

#[cfg(test)]
mod tests {
    use super::*;
    use crate::part::{read_or_refuse, State};

    /// Where the bits of `text` stop that have no reading from a state.
    fn stop(state: State, text: &str) -> Stop {
        let bits: Vec<u8> = text.bytes().map(|b| b - b'0').collect();
        let start = Start {
            state,
            ..Start::OF_PAGE
        };
        let refusal = read_or_refuse(start, &bits).expect_err("no reading");
        Stop::of(refusal, start, &bits)
    }

    #[test]
    fn stops_are_counted_by_their_place() {
        let mut stops = Stops::default();
        for text in ["1", "0110", "01010"] {
            stops.add(stop(State::BW, text));
        }
        let words = |number| "1111111".repeat(number);
        for text in [words(36) + "000000", words(37) + "000000", words(73) + "1"] {
            stops.add(stop(State::WW, &text));
        }
        let counts = stops.counts().map(|(_, times)| times);
        assert_eq!(counts, [6, 1, 3, 2, 2]);
        let names = stops.counts().map(|(name, _)| name);
        assert_eq!(stops.rare(6, 2), [names[1]]);
        assert_eq!(stops.rare(7, 1), [names[0]]);
        assert!(stops.rare(6, 1).is_empty());
    }
}
