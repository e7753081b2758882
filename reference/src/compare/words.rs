//! The calls between a page's bitmap and its run words, either way.

mod input;
mod spoilt_words;

use std::fmt;

use super::counts::Counts;
use super::lent::Item;
use super::outcome::{self, Written};
use crate::page;
use crate::random::Random;
use crate::refusal::{self, Refusal};
use input::Input;

/// A call under test: what it reads, then the memory lent for what it writes
/// and for the answer.
pub type Call<A, B, const N: usize> = fn(&[A], &mut [B], &mut [u64; N]) -> u64;

#[derive(Clone, Copy)]
pub struct Calls {
    /// The answer: the words.
    pub words_of_bitmap: Call<u8, i16, 1>,
    /// The answer: octets and words used.
    pub bitmap_of_words: Call<i16, u8, 2>,
}

/// What a call with so much room for its output should write.
type Reference<A, B, const N: usize> = fn(&[A], usize) -> Result<Written<B, N>, Refusal>;

fn words_of_bitmap(bitmap: &[u8], room: usize) -> Result<Written<i16, 1>, Refusal> {
    let words = page::words_of_bitmap(bitmap, room)?;
    Ok(Written {
        answer: [words.len() as u64],
        items: words,
    })
}

fn bitmap_of_words(words: &[i16], room: usize) -> Result<Written<u8, 2>, Refusal> {
    let (bitmap, used) = page::bitmap_of_words(words, room)?;
    Ok(Written {
        answer: [bitmap.len() as u64, used as u64],
        items: bitmap,
    })
}

/// Compares on `number` inputs, each made from the seed and its index alone.
pub fn compare(calls: Calls, number: u64, seed: u64) -> Result<Tally, String> {
    let mut tally = Tally::default();
    for index in 0..number {
        tally.add(check(calls, index, seed)?);
    }
    Ok(tally)
}

/// Compares on one input and tells what came of it.
pub fn check(calls: Calls, index: u64, seed: u64) -> Result<Seen, String> {
    let mut random = Random::of_input(index, seed);
    let checked = match random.below(2) {
        0 => check_bitmap(calls.words_of_bitmap, &mut random),
        _ => check_words(calls.bitmap_of_words, &mut random),
    };
    checked.map_err(|difference| {
        format!("input {index}: {difference}\nreplay: reference/compare words-input {index} {seed}")
    })
}

fn check_bitmap(call: Call<u8, i16, 1>, random: &mut Random) -> Result<Seen, String> {
    let (spoilt, input) = Input::bitmap(random);
    let expected = agreed(call, words_of_bitmap, &input)?;
    if let Ok(words) = &expected {
        let back = page::bitmap_of_words(&words.items, usize::MAX);
        if back != Ok((input.lent.clone(), words.items.len())) {
            return Err(format!("the reference's words read back differ; {input}"));
        }
    }
    Ok(Seen::of(Form::Bitmap, spoilt, &expected))
}

fn check_words(call: Call<i16, u8, 2>, random: &mut Random) -> Result<Seen, String> {
    let (spoilt, input) = Input::words(random);
    let expected = agreed(call, bitmap_of_words, &input)?;
    if let Ok(bitmap) = &expected {
        let again = page::words_of_bitmap(&bitmap.items, usize::MAX);
        let used = bitmap.answer[1] as usize;
        if again.as_deref() != Ok(&input.lent[..used]) {
            return Err(format!("the reference's bitmap read back differs; {input}"));
        }
    }
    Ok(Seen::of(Form::Words, spoilt, &expected))
}

/// What is expected, if the call gives it.
fn agreed<A: Item, B: Item, const N: usize>(
    call: Call<A, B, N>,
    reference: Reference<A, B, N>,
    input: &Input<A>,
) -> Result<Result<Written<B, N>, Refusal>, String> {
    let expected = reference(&input.lent, input.memory.room);
    let difference = outcome::difference(input.memory, &expected, |out, answer| {
        call(&input.lent, out, answer)
    });
    match difference {
        Some(difference) => Err(format!("{difference}; {input}")),
        None => Ok(expected),
    }
}

#[derive(Clone, Copy, Debug, PartialEq, Eq)]
enum Form {
    Bitmap,
    Words,
}

/// What came of an input: what it was, and the refusal's number or 0.
#[derive(Clone, Copy, Debug)]
pub struct Seen {
    form: Form,
    spoilt: bool,
    number: u64,
}

impl Seen {
    fn of<T>(form: Form, spoilt: bool, expected: &Result<T, Refusal>) -> Seen {
        Seen {
            form,
            spoilt,
            number: refusal::number(expected),
        }
    }
}

/// How many inputs of each kind there were, and what came of them.
#[derive(Debug, Default)]
pub struct Tally {
    bitmaps: Counts,
    words: Counts,
}

impl Tally {
    fn add(&mut self, seen: Seen) {
        let counts = match seen.form {
            Form::Bitmap => &mut self.bitmaps,
            Form::Words => &mut self.words,
        };
        counts.add(seen.spoilt, seen.number);
    }
}

impl fmt::Display for Tally {
    fn fmt(&self, f: &mut fmt::Formatter) -> fmt::Result {
        let Tally { bitmaps, words } = self;
        write!(f, "bitmaps {bitmaps}; words {words}")
    }
}

#[cfg(test)]
mod tests {
    use super::*;
    use crate::compare::replayed;
    use crate::page::bitmap::LINE;

    const SEED: u64 = 1;
    const NUMBER: u64 = 20_000;

    fn write<T: Copy, const N: usize>(
        written: Result<Written<T, N>, Refusal>,
        out: &mut [T],
        answer: &mut [u64; N],
    ) -> u64 {
        match written {
            Ok(written) => {
                out[..written.items.len()].copy_from_slice(&written.items);
                *answer = written.answer;
                0
            }
            Err(refusal) => refusal.number,
        }
    }

    /// The calls as they must be.
    fn to_words(bitmap: &[u8], out: &mut [i16], answer: &mut [u64; 1]) -> u64 {
        write(words_of_bitmap(bitmap, out.len()), out, answer)
    }

    fn to_bitmap(words: &[i16], out: &mut [u8], answer: &mut [u64; 2]) -> u64 {
        write(bitmap_of_words(words, out.len()), out, answer)
    }

    const RIGHT: Calls = Calls {
        words_of_bitmap: to_words,
        bitmap_of_words: to_bitmap,
    };

    /// The words with each line's runs changed.
    fn with_lines(words: &[i16], change: fn(&mut Vec<i16>)) -> Vec<i16> {
        let mut changed = Vec::new();
        for line in words.split_inclusive(|word| *word == 0) {
            let mut runs = line.to_vec();
            let closed = runs.pop_if(|word| *word == 0).is_some();
            if !runs.is_empty() {
                change(&mut runs);
            }
            changed.extend(runs);
            changed.extend(closed.then_some(0));
        }
        changed
    }

    /// The right answer to a bitmap, with each line's runs changed.
    fn to_changed_words(
        bitmap: &[u8],
        out: &mut [i16],
        answer: &mut [u64; 1],
        change: fn(&mut Vec<i16>),
    ) -> u64 {
        let returned = to_words(bitmap, out, answer);
        if returned == 0 {
            let used = answer[0] as usize;
            let changed = with_lines(&out[..used], change);
            if changed.len() > out.len() {
                return 16;
            }
            out[..changed.len()].copy_from_slice(&changed);
            answer[0] = changed.len() as u64;
        }
        returned
    }

    /// The right answer to words that were mended first.
    fn to_bitmap_of_changed(
        words: &[i16],
        out: &mut [u8],
        answer: &mut [u64; 2],
        change: fn(&mut Vec<i16>),
    ) -> u64 {
        let returned = to_bitmap(words, out, answer);
        match returned {
            22 => to_bitmap(&with_lines(words, change), out, answer),
            _ => returned,
        }
    }

    /// Calls from a bitmap that are wrong in one small way.
    const WRONG_TO_WORDS: [(&str, Call<u8, i16, 1>); 14] = [
        ("writes what it has room for", |bitmap, out, answer| {
            let returned = to_words(bitmap, out, answer);
            if returned == 16 && !out.is_empty() {
                out[0] = !out[0];
            }
            returned
        }),
        ("clears the rest of the room", |bitmap, out, answer| {
            let returned = to_words(bitmap, out, answer);
            if returned == 0 {
                out[answer[0] as usize..].fill(0);
            }
            returned
        }),
        ("answers a refusal", |bitmap, out, answer| {
            let returned = to_words(bitmap, out, answer);
            if returned == 18 {
                answer[0] = 0;
            }
            returned
        }),
        ("leaves out the page's last 0", |bitmap, out, answer| {
            let returned = to_words(bitmap, out, answer);
            if returned == 0 {
                answer[0] -= 1;
            }
            returned
        }),
        ("wants more room", |bitmap, out, answer| {
            let room = out.len();
            match words_of_bitmap(bitmap, room) {
                Ok(words) if words.items.len() == room => 16,
                _ => to_words(bitmap, out, answer),
            }
        }),
        ("keeps trailing white", |bitmap, out, answer| {
            to_changed_words(bitmap, out, answer, |runs| {
                let total: i16 = runs.iter().map(|run| run.abs()).sum();
                if *runs != [1] && total < 1726 {
                    runs.push(1726 - total);
                }
            })
        }),
        ("writes a white line as 1726", |bitmap, out, answer| {
            to_changed_words(bitmap, out, answer, |runs| {
                if *runs == [1] {
                    runs[0] = 1726;
                }
            })
        }),
        ("loses the last pel", |bitmap, out, answer| {
            to_changed_words(bitmap, out, answer, |runs| {
                let total: i16 = runs.iter().map(|run| run.abs()).sum();
                match runs.last_mut() {
                    Some(last) if total == 1726 && *last < -1 => *last += 1,
                    _ => {}
                }
            })
        }),
        (
            "does not judge the last line's trailing bits",
            |bitmap, out, answer| {
                let mut bitmap = bitmap.to_vec();
                if bitmap.len() > LINE {
                    *bitmap.last_mut().expect("a line") &= !0b11;
                }
                to_words(&bitmap, out, answer)
            },
        ),
        ("judges one trailing bit", |bitmap, out, answer| {
            let mut bitmap = bitmap.to_vec();
            for octet in bitmap.iter_mut().skip(3).step_by(LINE).skip(1) {
                *octet &= !0b10;
            }
            to_words(&bitmap, out, answer)
        }),
        (
            "judges 18 before 17",
            |bitmap, out, answer| match to_words(bitmap, out, answer) {
                17 if bitmap.len() % LINE != 4 => 18,
                returned => returned,
            },
        ),
        ("takes 6002 lines", |bitmap, out, answer| {
            match to_words(bitmap, out, answer) {
                17 if bitmap.len() == 4 + 6002 * LINE => 16,
                returned => returned,
            }
        }),
        (
            "has the low octet of the lines only",
            |bitmap, out, answer| match to_words(bitmap, out, answer) {
                0 | 16 if bitmap[3] != 0 => 18,
                returned => returned,
            },
        ),
        ("names a record", |bitmap, out, answer| {
            match to_words(bitmap, out, answer) {
                0 => 0,
                number => number + (1 << 24),
            }
        }),
    ];

    /// Calls from words that are wrong in one small way.
    const WRONG_TO_BITMAP: [(&str, Call<i16, u8, 2>); 13] = [
        ("writes what it has read", |words, out, answer| {
            let returned = to_bitmap(words, out, answer);
            if returned == 22 && out.len() > LINE {
                out[4] = !out[4];
            }
            returned
        }),
        ("clears the rest of the room", |words, out, answer| {
            let returned = to_bitmap(words, out, answer);
            if returned == 0 {
                out[answer[0] as usize..].fill(0);
            }
            returned
        }),
        ("leaves white octets as they were", |words, out, answer| {
            let before = out.to_vec();
            let returned = to_bitmap(words, out, answer);
            if returned == 0 {
                let octets = out[..answer[0] as usize].iter_mut();
                for (octet, before) in octets.zip(before).skip(4).filter(|(own, _)| **own == 0) {
                    *octet = before;
                }
            }
            returned
        }),
        ("answers the words lent", |words, out, answer| {
            let returned = to_bitmap(words, out, answer);
            if returned == 0 {
                answer[1] = words.len() as u64;
            }
            returned
        }),
        ("judges the room first", |words, out, answer| {
            if out.len() < 4 + 2 * LINE {
                return 16;
            }
            to_bitmap(words, out, answer)
        }),
        ("judges 17 before 22", |words, out, answer| {
            let lines = words.split(|word| *word == 0);
            let lines = lines.take_while(|runs| !runs.is_empty()).count();
            match to_bitmap(words, out, answer) {
                22 if lines % 2 == 1 => 17,
                returned => returned,
            }
        }),
        ("does not judge past 6000 lines", |words, out, answer| {
            let mut zeros = words.iter().enumerate().filter(|(_, word)| **word == 0);
            match zeros.nth(6000) {
                Some((i, _)) => to_bitmap(&[&words[..=i], &[0]].concat(), out, answer),
                None => to_bitmap(words, out, answer),
            }
        }),
        (
            "finds a last 0 that is not lent",
            |words, out, answer| match to_bitmap(words, out, answer) {
                22 => to_bitmap(&[words, &[0]].concat(), out, answer),
                returned => returned,
            },
        ),
        ("takes trailing white", |words, out, answer| {
            to_bitmap_of_changed(words, out, answer, |runs| {
                if runs.len() > 1 {
                    runs.pop_if(|run| *run > 0);
                }
            })
        }),
        ("takes any white line", |words, out, answer| {
            to_bitmap_of_changed(words, out, answer, |runs| {
                if runs.len() == 1 && (1..=1726).contains(&runs[0]) {
                    runs[0] = 1;
                }
            })
        }),
        ("takes 1727 pels", |words, out, answer| {
            to_bitmap_of_changed(words, out, answer, |runs| {
                let total: i64 = runs.iter().map(|run| i64::from(*run).abs()).sum();
                if total == 1727 {
                    runs[0] -= runs[0].signum();
                    runs.retain(|run| *run != 0);
                }
            })
        }),
        ("adds sizes in 16 bits", |words, out, answer| {
            to_bitmap_of_changed(words, out, answer, |runs| {
                let total: i64 = runs.iter().map(|run| i64::from(*run).abs()).sum();
                if (65536..65536 + 1727).contains(&total) {
                    *runs = vec![-1];
                }
            })
        }),
        ("joins runs of a colour", |words, out, answer| {
            to_bitmap_of_changed(words, out, answer, |runs| {
                let joined = runs.chunk_by(|one, next| (*one < 0) == (*next < 0));
                *runs = joined
                    .map(|runs| {
                        runs.iter()
                            .fold(0, |sum: i16, run| sum.saturating_add(*run))
                    })
                    .collect();
            })
        }),
    ];

    #[test]
    fn the_right_calls_agree() {
        let Tally { bitmaps, words } = compare(RIGHT, NUMBER, SEED).expect("no difference");
        assert_eq!(bitmaps.all + words.all, NUMBER);
        for (counts, numbers) in [(bitmaps, [0, 16, 17, 18]), (words, [0, 16, 17, 22])] {
            assert!(counts.all > NUMBER / 4);
            let often = numbers.iter().all(|n| counts.numbers[*n] > NUMBER / 50);
            let seen: u64 = numbers.iter().map(|n| counts.numbers[*n]).sum();
            assert!(often && seen == counts.all, "{counts}");
        }
    }

    #[test]
    fn wrong_calls_differ() {
        let to_words = WRONG_TO_WORDS.map(|(name, words_of_bitmap)| {
            let calls = Calls {
                words_of_bitmap,
                ..RIGHT
            };
            (name, calls)
        });
        let to_bitmap = WRONG_TO_BITMAP.map(|(name, bitmap_of_words)| {
            let calls = Calls {
                bitmap_of_words,
                ..RIGHT
            };
            (name, calls)
        });
        for (name, wrong) in to_words.into_iter().chain(to_bitmap) {
            let difference = compare(wrong, NUMBER, SEED).expect_err(name);
            let (index, seed) = replayed(&difference, "words-input");
            assert!(check(RIGHT, index, seed).is_ok());
            assert!(check(wrong, index, seed).is_err(), "{name}");
        }
    }
}
