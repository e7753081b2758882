//! Compares the proved archive with the reference on random inputs. Every answer
//! is lent as numbers in memory of the reference's own, and handed on as the
//! struct that they are.

use std::fmt;
use std::process::ExitCode;

use dacom450::{calls, Check};
use reference::compare::frames;
use reference::compare::part::{self, Input, ReadPart};
use reference::compare::read::{self, ReadPage};
use reference::compare::words;
use reference::compare::write::{self, WritePage};
use reference::part::StartHandedIn;
use reference::register::HandedIn;

const USAGE: &str = "\
usage: compare part [N] [SEED]
       compare part-input OCTETS COUNT STATE BLACK WHITE X ROOM FILL
       compare words [N] [SEED]
       compare words-input INDEX SEED
       compare read [N] [SEED]
       compare read-input INDEX SEED
       compare write [N] [SEED]
       compare write-input INDEX SEED
       compare frames [N] [SEED]
       compare frames-input INDEX SEED";

/// The inputs of words, if their number is not given.
const MILLION: u64 = 1_000_000;

struct Calls {
    read_part: ReadPart,
    words: words::Calls,
    read_page: ReadPage,
    write_page: WritePage,
    frames: frames::Calls,
}

const CALLS: Calls = Calls {
    read_part: |octets, count, start, out, answer| {
        let StartHandedIn {
            state,
            black,
            white,
            x,
        } = start;
        calls::read_part(octets, count, state, black, white, x, out, answer.into())
    },
    words: words::Calls {
        words_of_bitmap: |bitmap, out, answer| calls::words_of_bitmap(bitmap, out, answer.into()),
        bitmap_of_words: |words, out, answer| calls::bitmap_of_words(words, out, answer.into()),
    },
    read_page: |file, check, out, answer| {
        calls::read_page(file, &struct_of(check), out, answer.into())
    },
    write_page: |bitmap, how, out, answer| {
        let check = struct_of(how.check);
        calls::write_page(bitmap, how.settings, how.rate, &check, out, answer.into())
    },
    frames: frames::Calls {
        find_frames: |octets, check, list, answer| {
            calls::find_frames(octets, &struct_of(check), list, answer.into())
        },
        records_of_capture: |octets, list, out, answer| {
            calls::records_of_capture(octets, list, out, answer.into())
        },
    },
};

fn struct_of(check: HandedIn) -> Check {
    Check {
        generator: check.generator,
        start: check.start,
        first_bit: check.first_bit,
        compare: check.compare,
        order: check.order,
    }
}

fn main() -> ExitCode {
    let arguments: Vec<String> = std::env::args().skip(1).collect();
    match found(&CALLS, &arguments) {
        Some(Ok(line)) => {
            println!("{line}");
            ExitCode::SUCCESS
        }
        Some(Err(difference)) => {
            println!("{difference}");
            ExitCode::FAILURE
        }
        None => {
            eprintln!("{USAGE}");
            ExitCode::from(2)
        }
    }
}

/// What was found, as a line or as the first difference; nothing if the
/// arguments cannot be read.
type Found = Option<Result<String, String>>;

fn found(calls: &Calls, arguments: &[String]) -> Found {
    let (name, rest) = arguments.split_first()?;
    let subject = name.strip_suffix("-input").unwrap_or(name);
    let found = match name.as_str() {
        "part" => on_many(rest, part::ENOUGH, |n, seed| {
            part::compare(calls.read_part, n, seed)
        }),
        "part-input" => on_part(calls.read_part, rest),
        "words" => on_many(rest, MILLION, |n, seed| {
            words::compare(calls.words, n, seed)
        }),
        "words-input" => on_one(rest, |index, seed| words::check(calls.words, index, seed)),
        "read" => on_many(rest, read::ENOUGH, |n, seed| {
            read::compare(calls.read_page, n, seed)
        }),
        "read-input" => on_one(rest, |index, seed| {
            read::check(calls.read_page, index, seed)
        }),
        "write" => on_many(rest, write::ENOUGH, |n, seed| {
            write::compare(calls.write_page, n, seed)
        }),
        "write-input" => on_one(rest, |index, seed| {
            write::check(calls.write_page, index, seed)
        }),
        "frames" => on_many(rest, frames::ENOUGH, |n, seed| {
            frames::compare(calls.frames, n, seed)
        }),
        "frames-input" => on_one(rest, |index, seed| frames::check(calls.frames, index, seed)),
        _ => None,
    };
    let named = |line| format!("{subject}: {line}");
    found.map(|found| found.map(named).map_err(named))
}

/// Compares on many inputs, so many if their number is not given.
fn on_many<T: fmt::Display>(
    arguments: &[String],
    number: u64,
    compare: impl FnOnce(u64, u64) -> Result<T, String>,
) -> Found {
    let (number, seed) = number_and_seed(arguments, number)?;
    let tally = compare(number, seed);
    Some(tally.map(|tally| format!("{number} inputs of seed {seed} agree ({tally})")))
}

/// Compares on the one input that has an index and a seed.
fn on_one<T: fmt::Debug>(
    arguments: &[String],
    check: impl FnOnce(u64, u64) -> Result<T, String>,
) -> Found {
    let (index, seed) = index_and_seed(arguments)?;
    Some(agreed(check(index, seed)))
}

fn on_part(read_part: ReadPart, arguments: &[String]) -> Found {
    let input = Input::from_words(arguments)?;
    Some(agreed(part::check(read_part, &input, true)))
}

fn agreed<T: fmt::Debug>(checked: Result<T, String>) -> Result<String, String> {
    checked.map(|seen| format!("the input agrees: {seen:?}"))
}

fn index_and_seed(arguments: &[String]) -> Option<(u64, u64)> {
    let [index, seed] = arguments else {
        return None;
    };
    Some((index.parse().ok()?, seed.parse().ok()?))
}

/// The number of inputs, so many if not given, and the seed, else 1.
fn number_and_seed(arguments: &[String], number: u64) -> Option<(u64, u64)> {
    match arguments {
        [] => Some((number, 1)),
        [number] => Some((number.parse().ok()?, 1)),
        [number, seed] => Some((number.parse().ok()?, seed.parse().ok()?)),
        _ => None,
    }
}
