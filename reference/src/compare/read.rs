//! The call on a page file.

mod input;
mod spoilt_octets;
mod spoilt_pages;
mod spoilt_records;

use std::fmt;

use super::counts::Counts;
use super::outcome::{self, Written};
use super::stops::{self, Stop, Stops};
use crate::file::read::{read_page, Read};
use crate::file::{DATA, RECORD};
use crate::frame::Frame;
use crate::octets::all_turned;
use crate::part::EDGE;
use crate::random::Random;
use crate::refusal::{self, Refusal, NO_READING};
use crate::register::HandedIn;
use input::Input;

/// The call under test: a file, a check setting, then the memory lent for the
/// bitmap and for the answer.
pub type ReadPage = fn(&[u8], HandedIn, &mut [u8], &mut [u64; ANSWER]) -> u64;

/// The numbers of an answer: octets used, lines, settings, data bits, columns.
const ANSWER: usize = 5;

/// Of so many inputs or more, each number must be given to some.
pub const ENOUGH: u64 = 200_000;

/// To so many at least, and as many pages must be accepted on which a field
/// length falls only because a run ends at the right edge.
pub const LEAST: u64 = 1000;

/// Compares on `number` inputs, each made from the seed and its index alone.
pub fn compare(call: ReadPage, number: u64, seed: u64) -> Result<Tally, String> {
    let mut tally = Tally::default();
    for index in 0..number {
        tally.add(check(call, index, seed)?);
    }
    tally.enough()
}

/// Compares on one input and tells what came of it.
pub fn check(call: ReadPage, index: u64, seed: u64) -> Result<Seen, String> {
    let mut random = Random::of_input(index, seed);
    let (spoilt, input) = Input::random(&mut random);
    let read = read_page(&input.file, input.check, input.memory.room);
    let falls_at_edge = read.as_ref().is_ok_and(|read| read.falls_at_edge > 0);
    let expected = read.map(written);
    let difference = outcome::difference(input.memory, &expected, |out, answer| {
        call(&input.file, input.check, out, answer)
    });
    match difference {
        Some(difference) => Err(format!(
            "input {index}: {difference}; {input}\n\
             replay: reference/compare read-input {index} {seed}"
        )),
        None => Ok(Seen {
            spoilt,
            number: refusal::number(&expected),
            stop: expected
                .err()
                .and_then(|refusal| stop(&input.file, refusal)),
            falls_at_edge,
        }),
    }
}

/// Where the data part stops that a file is refused for, if it has no reading.
fn stop(file: &[u8], refusal: Refusal) -> Option<Stop> {
    if refusal.number != NO_READING {
        return None;
    }
    let records = file.chunks(RECORD).take(refusal.record as usize + 1);
    let data = records.filter(|record| record[..2] == DATA);
    let images: Vec<Frame> = data
        .map(|record| Frame::of(&all_turned(&record[2..])))
        .filter(|frame| frame.header.count > 0)
        .collect();
    let (frame, before) = images.split_last()?;
    // The first is read from the page's start, whatever X it says.
    let x = if before.is_empty() {
        EDGE
    } else {
        frame.header.x.into()
    };
    Some(Stop::of(refusal, frame.start(x), frame.counted()))
}

fn written(read: Read) -> Written<u8, ANSWER> {
    Written {
        answer: [
            read.used as u64,
            read.lines as u64,
            read.settings,
            read.data_bits,
            read.columns as u64,
        ],
        items: read.bitmap,
    }
}

/// What came of an input.
#[derive(Clone, Copy, Debug)]
pub struct Seen {
    spoilt: bool,
    /// The refusal's number or 0.
    number: u64,
    /// Where a data part that has no reading stops.
    stop: Option<Stop>,
    /// Whether a field length fell only because a run ended at the right edge.
    falls_at_edge: bool,
}

/// How many inputs there were, and what came of them.
#[derive(Debug, Default)]
pub struct Tally {
    counts: Counts,
    stops: Stops,
    /// The accepted ones in which a field length fell only because a run ended
    /// at the right edge.
    fell_at_edge: u64,
}

impl Tally {
    /// The numbers that the call may give.
    const NUMBERS: [usize; 17] = [1, 2, 3, 4, 5, 6, 7, 8, 9, 10, 11, 12, 13, 14, 15, 16, 20];

    fn add(&mut self, seen: Seen) {
        self.counts.add(seen.spoilt, seen.number);
        if let Some(stop) = seen.stop {
            self.stops.add(stop);
        }
        self.fell_at_edge += u64::from(seen.falls_at_edge);
    }

    /// The tally, unless of enough inputs too few were given some number, stopped
    /// at some kind of place or were of pages on which the right edge decides.
    fn enough(self) -> Result<Tally, String> {
        let rare = self.counts.rare(Tally::NUMBERS, LEAST);
        if self.counts.all >= ENOUGH && !rare.is_empty() {
            return Err(format!(
                "{rare:?} were given to fewer than {LEAST} inputs ({self})"
            ));
        }
        let rare = self.stops.rare(stops::LEAST, stops::LEAST_AT);
        if self.counts.all >= ENOUGH && !rare.is_empty() {
            return Err(format!("too few inputs: {} ({self})", rare.join(", ")));
        }
        if self.counts.all >= ENOUGH && self.fell_at_edge < LEAST {
            return Err(format!(
                "fewer than {LEAST} inputs fell at the right edge ({self})"
            ));
        }
        Ok(self)
    }
}

impl fmt::Display for Tally {
    fn fmt(&self, f: &mut fmt::Formatter) -> fmt::Result {
        let Tally {
            counts,
            stops,
            fell_at_edge,
        } = self;
        write!(
            f,
            "files {counts}; refused {stops}; accepted and fell at the right edge {fell_at_edge}"
        )
    }
}

#[cfg(test)]
mod tests {
    use super::*;
    use crate::compare::replayed;
    use crate::file::SET_UP;
    use crate::frame::{self, RUN};
    use crate::page::bitmap;
    use crate::part::{lookahead, Start};

    const SEED: u64 = 1;
    const NUMBER: u64 = 10_000;

    /// The call as it must be.
    fn right(file: &[u8], check: HandedIn, out: &mut [u8], answer: &mut [u64; ANSWER]) -> u64 {
        match read_page(file, check, out.len()) {
            Ok(read) => {
                out[..read.bitmap.len()].copy_from_slice(&read.bitmap);
                answer[0] = read.used as u64;
                answer[1] = read.lines as u64;
                answer[2] = read.settings;
                answer[3] = read.data_bits;
                answer[4] = read.columns as u64;
                0
            }
            Err(refusal) => refusal.returned(),
        }
    }

    /// What is returned for a number that has no bit.
    fn returned(number: u64, record: u64) -> u64 {
        Refusal::from(number).at(record).returned()
    }

    /// What a call returned, all 0 where it does not refuse.
    fn taken_apart(returned: u64) -> Refusal {
        Refusal {
            number: returned % 256,
            record: returned >> 24,
            bit: (returned >> 8) % (1 << 16),
        }
    }

    /// The frames at the front of a file, each with whether it is of data.
    fn frames(file: &[u8]) -> Vec<(bool, Frame)> {
        let records = file.chunks_exact(RECORD);
        records
            .take_while(|record| record[..2] == SET_UP || record[..2] == DATA)
            .map(|record| (record[..2] == DATA, Frame::of(&all_turned(&record[2..]))))
            .collect()
    }

    /// The data frames that have bits.
    fn images(file: &[u8]) -> Vec<Frame> {
        let data = frames(file).into_iter().filter(|(is_data, _)| *is_data);
        let images = data.filter(|(_, frame)| frame.header.count > 0);
        images.map(|(_, frame)| frame).collect()
    }

    /// The columns of a page's first image frame as read from some X.
    fn first_from(frame: &Frame, x: u16) -> Option<Vec<u8>> {
        let bits = &frame.data[..usize::from(frame.header.count)];
        let start = Start {
            x: x.into(),
            ..Start::OF_PAGE
        };
        lookahead::read(start, bits).map(|part| part.columns)
    }

    /// The frame that a refusal falls at.
    fn frame_at(file: &[u8], record: u64) -> Frame {
        frames(file).swap_remove(record as usize).1
    }

    /// The file with those data frames changed whose checks are right, and
    /// their checks right again.
    fn changed(file: &[u8], check: HandedIn, change: fn(&mut Frame)) -> Vec<u8> {
        let Some((setting, _)) = check.allowed() else {
            return file.to_vec();
        };
        let mut file = file.to_vec();
        for record in file.chunks_exact_mut(RECORD) {
            let sent = all_turned(&record[2..]);
            if record[..2] == DATA && setting.agrees(&sent) {
                let mut frame = Frame::of(&sent);
                change(&mut frame);
                record[2..].copy_from_slice(&all_turned(&frame.sent(setting)));
            }
        }
        file
    }

    /// The refusal with another bit, if it tells one.
    fn with_bit(refusal: Refusal, other: impl FnOnce(u64) -> u64) -> u64 {
        match refusal.number {
            NO_READING => Refusal {
                bit: other(refusal.bit),
                ..refusal
            },
            _ => refusal,
        }
        .returned()
    }

    /// Calls that are wrong in one small way.
    const WRONG: [(&str, ReadPage); 38] = [
        ("writes what it has room for", |file, check, out, answer| {
            let returned = right(file, check, out, answer);
            if returned % 256 == 16 && !out.is_empty() {
                out[0] = !out[0];
            }
            returned
        }),
        ("writes before it refuses", |file, check, out, answer| {
            let returned = right(file, check, out, answer);
            if returned % 256 == 14 && out.len() > 4 {
                out[4] = !out[4];
            }
            returned
        }),
        ("answers a refusal", |file, check, out, answer| {
            let returned = right(file, check, out, answer);
            if returned % 256 == 11 {
                answer[0] = 0;
            }
            returned
        }),
        ("clears the rest of the room", |file, check, out, answer| {
            let returned = right(file, check, out, answer);
            if returned == 0 {
                out[bitmap::HEADER + bitmap::LINE * answer[1] as usize..].fill(0);
            }
            returned
        }),
        (
            "leaves white octets as they were",
            |file, check, out, answer| {
                let before = out.to_vec();
                let returned = right(file, check, out, answer);
                if returned == 0 {
                    let used = bitmap::HEADER + bitmap::LINE * answer[1] as usize;
                    let octets = out[..used].iter_mut().zip(before).skip(4);
                    for (octet, before) in octets.filter(|(own, _)| **own == 0) {
                        *octet = before;
                    }
                }
                returned
            },
        ),
        (
            "names the record after",
            |file, check, out, answer| match taken_apart(right(file, check, out, answer)) {
                Refusal { number: 0, .. } => 0,
                refusal => refusal.at(refusal.record + 1).returned(),
            },
        ),
        (
            "names no record for a short output",
            |file, check, out, answer| match taken_apart(right(file, check, out, answer)) {
                Refusal { number: 16, .. } => 16,
                refusal => refusal.returned(),
            },
        ),
        (
            "judges the room before the lines",
            |file, check, out, answer| match taken_apart(right(file, check, out, answer)) {
                Refusal {
                    number: 15, record, ..
                } if out.len() < 4 + 216 * 6002 => returned(16, record),
                refusal => refusal.returned(),
            },
        ),
        (
            "judges the columns before the end",
            |file, check, out, answer| match taken_apart(right(file, check, out, answer)) {
                Refusal {
                    number: 13, record, ..
                } => returned(14, record),
                refusal => refusal.returned(),
            },
        ),
        ("answers the octets lent", |file, check, out, answer| {
            let returned = right(file, check, out, answer);
            if returned == 0 {
                answer[0] = file.len() as u64;
            }
            returned
        }),
        ("answers the columns as bits", |file, check, out, answer| {
            let returned = right(file, check, out, answer);
            if returned == 0 {
                answer[3] = answer[4];
            }
            returned
        }),
        ("takes the last settings", |file, check, out, answer| {
            let returned = right(file, check, out, answer);
            if returned == 0 {
                let frames = frames(file);
                let set_up = frames.iter().rfind(|(is_data, _)| !is_data);
                let (_, frame) = set_up.expect("a set-up");
                let four = frame.data[1..5].iter();
                answer[2] = four.fold(0, |value, bit| value << 1 | u64::from(*bit));
            }
            returned
        }),
        ("never compares", |file, mut check, out, answer| {
            if check.compare == 1 {
                check.compare = 0;
            }
            right(file, check, out, answer)
        }),
        ("always compares", |file, mut check, out, answer| {
            if check.compare == 0 {
                check.compare = 1;
            }
            right(file, check, out, answer)
        }),
        (
            "judges the setting only if it compares",
            |file, mut check, out, answer| {
                if check.compare == 0 {
                    (check.generator, check.start, check.first_bit) = (1, 0, 0);
                }
                right(file, check, out, answer)
            },
        ),
        (
            "judges the order only if it compares",
            |file, mut check, out, answer| {
                if check.compare == 0 {
                    check.order = 0;
                }
                right(file, check, out, answer)
            },
        ),
        (
            "takes any order above 0 for 1",
            |file, mut check, out, answer| {
                check.order = check.order.min(1);
                right(file, check, out, answer)
            },
        ),
        (
            "cuts the order to 12 bits",
            |file, mut check, out, answer| {
                check.order %= 4096;
                right(file, check, out, answer)
            },
        ),
        (
            "takes every check low bit first",
            |file, mut check, out, answer| {
                if check.order == 1 {
                    check.order = 0;
                }
                right(file, check, out, answer)
            },
        ),
        (
            "takes any compare above 0 for 1",
            |file, mut check, out, answer| {
                check.compare = check.compare.min(1);
                right(file, check, out, answer)
            },
        ),
        (
            "cuts the start to 12 bits",
            |file, mut check, out, answer| {
                check.start %= 4096;
                right(file, check, out, answer)
            },
        ),
        (
            "wants nothing after the end",
            |file, check, out, answer| match read_page(file, check, out.len()) {
                Ok(read) if read.used < file.len() => returned(2, read.end + 1),
                _ => right(file, check, out, answer),
            },
        ),
        (
            "takes an unknown pair for none",
            |file, check, out, answer| match taken_apart(right(file, check, out, answer)) {
                Refusal {
                    number: 2, record, ..
                } => returned(1, record),
                refusal => refusal.returned(),
            },
        ),
        (
            "takes X as the next column to lay",
            |file, check, out, answer| {
                let file = changed(file, check, |frame| {
                    frame.header.x = (frame.header.x + 1725) % 1726;
                });
                right(&file, check, out, answer)
            },
        ),
        (
            "compares a header that has no bits",
            |file, check, out, answer| match read_page(file, check, out.len()) {
                Ok(read)
                    if frames(file)
                        .iter()
                        .any(|(_, own)| own.header.count == 0 && own.header.x > 1725) =>
                {
                    returned(10, read.end)
                }
                _ => right(file, check, out, answer),
            },
        ),
        (
            "compares the first X",
            |file, check, out, answer| match read_page(file, check, out.len()) {
                Ok(_) if images(file)[0].header.x != 1725 => 10,
                _ => right(file, check, out, answer),
            },
        ),
        (
            "reads the first frame from the X that it says",
            |file, check, out, answer| match read_page(file, check, out.len()) {
                Ok(_) => {
                    let first = images(file).swap_remove(0);
                    if first_from(&first, first.header.x) != first_from(&first, 1725) {
                        return 10;
                    }
                    right(file, check, out, answer)
                }
                _ => right(file, check, out, answer),
            },
        ),
        (
            "forgets the right edge",
            |file, check, out, answer| match read_page(file, check, out.len()) {
                Ok(read) if read.falls_at_edge > 0 => 10,
                _ => right(file, check, out, answer),
            },
        ),
        ("judges flags", |file, check, out, answer| {
            match read_page(file, check, out.len()) {
                Ok(_) if images(file)[0].header.flags != RUN => 4,
                _ => right(file, check, out, answer),
            }
        }),
        (
            "judges padding",
            |file, check, out, answer| match read_page(file, check, out.len()) {
                Ok(_) if images(file)[0].padding != 0 => 5,
                _ => right(file, check, out, answer),
            },
        ),
        (
            "refuses a count of 512",
            |file, check, out, answer| match read_page(file, check, out.len()) {
                Ok(_) if images(file).iter().any(|own| own.header.count == 512) => 8,
                _ => right(file, check, out, answer),
            },
        ),
        (
            "refuses a size of 2",
            |file, check, out, answer| match read_page(file, check, out.len()) {
                Ok(_) if images(file).iter().any(|own| own.header.black == 2) => 9,
                _ => right(file, check, out, answer),
            },
        ),
        ("tells no bit", |file, check, out, answer| {
            with_bit(taken_apart(right(file, check, out, answer)), |_| 0)
        }),
        (
            "counts from the frame's first bit",
            |file, check, out, answer| {
                let refusal = taken_apart(right(file, check, out, answer));
                with_bit(refusal, |bit| bit + frame::DATA as u64)
            },
        ),
        ("cuts the bit to an octet", |file, check, out, answer| {
            let refusal = taken_apart(right(file, check, out, answer));
            with_bit(refusal, |bit| bit % 256)
        }),
        (
            "stops where looking ahead does",
            |file, check, out, answer| {
                let refusal = taken_apart(right(file, check, out, answer));
                let stop = stop(file, refusal);
                let before = stop.is_some_and(|stop| stop.is_read_otherwise);
                with_bit(refusal, |bit| bit - u64::from(before))
            },
        ),
        (
            "tells a bit with other numbers",
            |file, check, out, answer| match taken_apart(right(file, check, out, answer)) {
                refusal if [0, NO_READING].contains(&refusal.number) => refusal.returned(),
                refusal => Refusal { bit: 1, ..refusal }.returned(),
            },
        ),
        (
            "judges 9 before 8",
            |file, check, out, answer| match taken_apart(right(file, check, out, answer)) {
                Refusal {
                    number: 8, record, ..
                } if frame_at(file, record).header.black < 2 => returned(9, record),
                refusal => refusal.returned(),
            },
        ),
    ];

    #[test]
    fn the_right_call_agrees() {
        let tally = compare(right, NUMBER, SEED).expect("no difference");
        let counts = &tally.counts;
        assert_eq!(counts.all, NUMBER);
        assert!(tally.fell_at_edge > NUMBER / 64, "{tally}");
        assert!((NUMBER / 2..NUMBER).contains(&counts.spoilt));
        assert!(counts.numbers[0] > NUMBER / 8, "{counts}");
        let share = |least| least * NUMBER / ENOUGH;
        let rare = counts.rare(Tally::NUMBERS, share(LEAST));
        assert!(rare.is_empty(), "{counts}");
        let rare = tally
            .stops
            .rare(share(stops::LEAST), share(stops::LEAST_AT));
        assert!(rare.is_empty(), "{tally}");
        let seen: u64 = Tally::NUMBERS.iter().map(|n| counts.numbers[*n]).sum();
        assert_eq!(seen + counts.numbers[0], NUMBER);
    }

    #[test]
    fn files_that_are_not_spoilt_are_accepted() {
        for index in 0..2000 {
            let seen = check(right, index, SEED).expect("no difference");
            assert!(seen.spoilt || [0, 16].contains(&seen.number));
        }
    }

    #[test]
    fn wrong_calls_differ() {
        for (name, wrong) in WRONG {
            let difference = compare(wrong, NUMBER, SEED).expect_err(name);
            let (index, seed) = replayed(&difference, "read-input");
            assert!(check(right, index, seed).is_ok());
            assert!(check(wrong, index, seed).is_err(), "{name}");
        }
    }

    #[test]
    fn numbers_given_too_seldom_fail_a_long_run() {
        let tally = |all, rare, stops, fell_at_edge| {
            let mut counts = Counts {
                all,
                ..Counts::default()
            };
            counts.numbers = [LEAST; 26];
            counts.numbers[13] = rare;
            let tally = Tally {
                counts,
                stops: Stops::of_each(stops),
                fell_at_edge,
            };
            tally.enough()
        };
        const STOPS: u64 = stops::LEAST;
        assert!(tally(ENOUGH, LEAST, STOPS, LEAST).is_ok());
        assert!(tally(ENOUGH - 1, LEAST - 1, STOPS - 1, LEAST - 1).is_ok());
        let failed = |rare, stops, fell| tally(ENOUGH, rare, stops, fell).expect_err("too few");
        let [number, stop, edge] = [
            failed(LEAST - 1, STOPS, LEAST),
            failed(LEAST, STOPS - 1, LEAST),
            failed(LEAST, STOPS, LEAST - 1),
        ];
        assert!(number.starts_with("[13] were given to fewer than 1000 inputs"));
        assert!(stop.starts_with("too few inputs: by 11 ("));
        assert!(edge.starts_with("fewer than 1000 inputs fell at"));
    }
}
