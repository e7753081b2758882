use super::*;
use crate::compare::replayed;
use crate::file::write::{can_be_told, coded, image_frames, records, Coding, Unit, RATES};
use crate::file::{are_settings, stored, Record, Records, END};
use crate::frame::Frame;
use crate::part::steps::{falls, Due, Place, Reading, Step};
use crate::part::{State, EDGE};

const SEED: u64 = 1;
const NUMBER: u64 = 10_000;

/// The call as it must be.
fn right(bitmap: &[u8], how: How, out: &mut [u8], answer: &mut [u64; ANSWER]) -> u64 {
    match write_page(bitmap, how.settings, how.rate, how.check, out.len()) {
        Ok(file) => put(&file, out, answer),
        Err(refusal) => refusal.number,
    }
}

fn put(file: &[u8], out: &mut [u8], answer: &mut [u64; ANSWER]) -> u64 {
    out[..file.len()].copy_from_slice(file);
    answer[0] = file.len() as u64;
    0
}

/// The call that writes other records. A frame with more columns than their
/// maker's second argument would be closed.
fn with_records(
    bitmap: &[u8],
    how: How,
    out: &mut [u8],
    answer: &mut [u64; ANSWER],
    make: impl Fn(&[u8], usize) -> Records,
) -> u64 {
    let written = write_page(bitmap, how.settings, how.rate, how.check, usize::MAX);
    if let Err(refusal) = written {
        return refusal.number;
    }
    let columns = columns_of(bitmap);
    let most = most_columns(how.rate).expect("a rate");
    let (setting, _) = how.check.allowed().expect("a setting");
    let file = stored(&make(&columns, most), setting);
    if file.len() > out.len() {
        return 16;
    }
    put(&file, out, answer)
}

/// The call that writes other image frames.
fn with_frames(
    bitmap: &[u8],
    how: How,
    out: &mut [u8],
    answer: &mut [u64; ANSWER],
    make: fn(&[u8], usize) -> Vec<Reading>,
) -> u64 {
    with_records(bitmap, how, out, answer, |columns, most| {
        records(how.settings, &make(columns, most))
    })
}

/// The call that changes the records before it stores them.
fn with_changed(
    bitmap: &[u8],
    how: How,
    out: &mut [u8],
    answer: &mut [u64; ANSWER],
    change: fn(&mut Records),
) -> u64 {
    with_records(bitmap, how, out, answer, |columns, most| {
        let mut records = records(how.settings, &image_frames(columns, most));
        change(&mut records);
        records
    })
}

/// The call that closes frames elsewhere.
fn closing(
    bitmap: &[u8],
    how: How,
    out: &mut [u8],
    answer: &mut [u64; ANSWER],
    closes: fn(&mut Coding, usize) -> bool,
) -> u64 {
    with_records(bitmap, how, out, answer, |columns, most| {
        let frames = coded(columns, |coding| closes(coding, most));
        records(how.settings, &frames)
    })
}

/// The call that tests other closing words for the fall of the field length: those
/// of which `is_tested` says so, by where they are taken and X after them.
fn testing(
    bitmap: &[u8],
    how: How,
    out: &mut [u8],
    answer: &mut [u64; ANSWER],
    is_tested: fn(Place, usize) -> bool,
) -> u64 {
    with_records(bitmap, how, out, answer, |columns, most| {
        let frames = coded(columns, |coding| {
            let steps = &coding.frames.last().expect("a frame").steps;
            if let [.., (from, step @ Step::Closing(value)), (_, Step::Move(_))] = steps[..] {
                let n = from.field_length();
                let falls = is_tested(from, from.x_after(step)) && falls(n, value);
                let length = n - usize::from(falls);
                match from.state {
                    State::WW => coding.place.white = length,
                    _ => coding.place.black = length,
                }
            }
            coding.is_full(most)
        });
        records(how.settings, &frames)
    })
}

/// Whether a word that is taken here is its run's first in its frame.
fn is_first(place: Place) -> bool {
    place.due == Due::FirstWord
}

/// The data frames, that of no bits among them.
fn data(records: &mut Records) -> impl Iterator<Item = &mut Frame> {
    records.iter_mut().filter_map(|record| match record {
        Record::Data(frame) => Some(frame),
        _ => None,
    })
}

/// The columns of a bitmap that is accepted.
fn columns_of(bitmap: &[u8]) -> Vec<u8> {
    columns::of(&bitmap::read(bitmap).expect("a bitmap"))
}

/// Calls that are wrong in one small way.
const WRONG: [(&str, WritePage); 63] = [
    ("writes what it has room for", |bitmap, how, out, answer| {
        let returned = right(bitmap, how, out, answer);
        if returned == 16 && !out.is_empty() {
            out[0] = !out[0];
        }
        returned
    }),
    ("writes before it refuses", |bitmap, how, out, answer| {
        let returned = right(bitmap, how, out, answer);
        if returned == 19 && !out.is_empty() {
            out[0] = !out[0];
        }
        returned
    }),
    ("answers a refusal", |bitmap, how, out, answer| {
        let returned = right(bitmap, how, out, answer);
        if returned == 6 {
            answer[0] = 0;
        }
        returned
    }),
    ("writes past the file", |bitmap, how, out, answer| {
        let returned = right(bitmap, how, out, answer);
        if returned == 0 {
            if let Some(octet) = out.get_mut(answer[0] as usize) {
                *octet = !*octet;
            }
        }
        returned
    }),
    ("clears the rest of the room", |bitmap, how, out, answer| {
        let returned = right(bitmap, how, out, answer);
        if returned == 0 {
            out[answer[0] as usize..].fill(0);
        }
        returned
    }),
    ("answers without the end", |bitmap, how, out, answer| {
        let returned = right(bitmap, how, out, answer);
        if returned == 0 {
            answer[0] -= END.len() as u64;
        }
        returned
    }),
    ("changes one octet", |bitmap, how, out, answer| {
        let returned = right(bitmap, how, out, answer);
        if returned == 0 {
            out[answer[0] as usize / 2] ^= 1;
        }
        returned
    }),
    ("wants more room", |bitmap, how, out, answer| {
        let returned = right(bitmap, how, out, answer);
        if returned == 0 && answer[0] as usize == out.len() {
            return 16;
        }
        returned
    }),
    ("does with one octet less", |bitmap, how, out, answer| {
        let mut more = [&*out, &[0]].concat();
        let returned = right(bitmap, how, &mut more, answer);
        out.copy_from_slice(&more[..out.len()]);
        returned
    }),
    ("names a record", |bitmap, how, out, answer| {
        match right(bitmap, how, out, answer) {
            0 => 0,
            number => number + (1 << 24),
        }
    }),
    (
        "judges the bitmap before the check",
        |bitmap, how, out, answer| match right(bitmap, how, out, answer) {
            20 => bitmap::read(bitmap).map_or_else(Refusal::returned, |_| 20),
            returned => returned,
        },
    ),
    ("judges the settings first", |bitmap, how, out, answer| {
        if !are_settings(how.settings) {
            return 6;
        }
        right(bitmap, how, out, answer)
    }),
    (
        "judges the rate after the bitmap",
        |bitmap, how, out, answer| {
            if most_columns(how.rate).is_none() {
                return bitmap::read(bitmap).map_or_else(Refusal::returned, |_| 20);
            }
            right(bitmap, how, out, answer)
        },
    ),
    (
        "judges 18 before 17",
        |bitmap, how, out, answer| match right(bitmap, how, out, answer) {
            17 if bitmap.len() % 216 != 4 => 18,
            returned => returned,
        },
    ),
    (
        "judges 6 before 17",
        |bitmap, how, out, answer| match right(bitmap, how, out, answer) {
            17 if !are_settings(how.settings) => 6,
            returned => returned,
        },
    ),
    (
        "judges 6 before 18",
        |bitmap, how, out, answer| match right(bitmap, how, out, answer) {
            18 if !are_settings(how.settings) => 6,
            returned => returned,
        },
    ),
    (
        "judges 19 before 6",
        |bitmap, how, out, answer| match right(bitmap, how, out, answer) {
            6 if !can_be_told(&columns_of(bitmap)) => 19,
            returned => returned,
        },
    ),
    (
        "judges 16 before 19",
        |bitmap, how, out, answer| match right(bitmap, how, out, answer) {
            19 if out.len() < 230 => 16,
            returned => returned,
        },
    ),
    (
        "judges 16 before 6",
        |bitmap, how, out, answer| match right(bitmap, how, out, answer) {
            6 if out.len() < 230 => 16,
            returned => returned,
        },
    ),
    (
        "writes what is not compared",
        |bitmap, mut how, out, answer| {
            how.check.compare = how.check.compare.max(1);
            right(bitmap, how, out, answer)
        },
    ),
    (
        "takes any compare above 0 for 1",
        |bitmap, mut how, out, answer| {
            how.check.compare = how.check.compare.min(1);
            right(bitmap, how, out, answer)
        },
    ),
    (
        "takes any order above 0 for 1",
        |bitmap, mut how, out, answer| {
            how.check.order = how.check.order.min(1);
            right(bitmap, how, out, answer)
        },
    ),
    (
        "cuts the order to 12 bits",
        |bitmap, mut how, out, answer| {
            how.check.order %= 4096;
            right(bitmap, how, out, answer)
        },
    ),
    (
        "sends every check low bit first",
        |bitmap, mut how, out, answer| {
            if how.check.order == 1 {
                how.check.order = 0;
            }
            right(bitmap, how, out, answer)
        },
    ),
    (
        "cuts the start to 12 bits",
        |bitmap, mut how, out, answer| {
            how.check.start %= 4096;
            right(bitmap, how, out, answer)
        },
    ),
    (
        "cuts the rate to 32 bits",
        |bitmap, mut how, out, answer| {
            how.rate %= 1 << 32;
            right(bitmap, how, out, answer)
        },
    ),
    (
        "cuts the settings to 4 bits",
        |bitmap, mut how, out, answer| {
            how.settings %= 16;
            right(bitmap, how, out, answer)
        },
    ),
    ("takes both papers", |bitmap, mut how, out, answer| {
        if how.settings < 16 && how.settings & 0b0011 == 0b0011 {
            how.settings -= 1;
        }
        right(bitmap, how, out, answer)
    }),
    ("takes both modes", |bitmap, mut how, out, answer| {
        if how.settings < 16 && how.settings & 0b1100 == 0b1100 {
            how.settings -= 4;
        }
        right(bitmap, how, out, answer)
    }),
    ("exchanges the papers", |bitmap, mut how, out, answer| {
        if are_settings(how.settings) && how.settings & 0b0011 != 0 {
            how.settings ^= 0b0011;
        }
        right(bitmap, how, out, answer)
    }),
    (
        "has the low octet of the lines only",
        |bitmap, how, out, answer| match right(bitmap, how, out, answer) {
            0 | 16 if bitmap[3] != 0 => 18,
            returned => returned,
        },
    ),
    (
        "refuses 6000 lines",
        |bitmap, how, out, answer| match right(bitmap, how, out, answer) {
            0 if bitmap.len() == 4 + 216 * 6000 => 17,
            returned => returned,
        },
    ),
    (
        "refuses any last column that is mixed",
        |bitmap, how, out, answer| match right(bitmap, how, out, answer) {
            0 if [1, 2].contains(columns_of(bitmap).last().expect("columns")) => 19,
            returned => returned,
        },
    ),
    (
        "takes the lower line for the upper",
        |bitmap, how, out, answer| {
            with_frames(bitmap, how, out, answer, |columns, most| {
                let turned = columns.iter().map(|pels| pels >> 1 | (pels & 1) << 1);
                image_frames(&turned.collect::<Vec<u8>>(), most)
            })
        },
    ),
    (
        "takes the rates the other way",
        |bitmap, mut how, out, answer| {
            how.rate = match how.rate {
                2400 => 9600,
                9600 => 2400,
                rate => rate,
            };
            right(bitmap, how, out, answer)
        },
    ),
    ("closes at 500 bits", |bitmap, how, out, answer| {
        closing(bitmap, how, out, answer, |coding, most| {
            coding.bits >= 500 || coding.columns > most
        })
    }),
    ("goes on at 501 bits", |bitmap, how, out, answer| {
        closing(bitmap, how, out, answer, |coding, most| {
            coding.bits > 501 || coding.columns > most
        })
    }),
    ("closes at the most columns", |bitmap, how, out, answer| {
        closing(bitmap, how, out, answer, |coding, most| {
            coding.bits > 500 || coding.columns >= most
        })
    }),
    ("goes on at one column more", |bitmap, how, out, answer| {
        closing(bitmap, how, out, answer, |coding, most| {
            coding.bits > 500 || coding.columns > most + 1
        })
    }),
    (
        "does not count an open column",
        |bitmap, how, out, answer| {
            closing(bitmap, how, out, answer, |coding, most| {
                let is_open = coding.frames.last().is_some_and(Reading::is_open);
                coding.bits > 500 || coding.columns - usize::from(is_open) > most
            })
        },
    ),
    ("closes by bits only", |bitmap, how, out, answer| {
        closing(bitmap, how, out, answer, |coding, _| coding.bits > 500)
    }),
    (
        "closes before a unit that is too long",
        |bitmap, how, out, answer| {
            closing(bitmap, how, out, answer, |coding, most| {
                let bits = |unit: Unit| {
                    let code = coding.place.code(unit.step);
                    code.length + usize::from(unit.move_out.is_some())
                };
                coding.bits + coding.unit().map_or(0, bits) > 500 || coding.columns > most
            })
        },
    ),
    ("does not close in a run", |bitmap, how, out, answer| {
        closing(bitmap, how, out, answer, |coding, most| {
            coding.is_full(most) && (coding.place.due != Due::FurtherWord || coding.bits > 500)
        })
    }),
    (
        "parts a closing word from its move out",
        |bitmap, how, out, answer| {
            with_frames(bitmap, how, out, answer, |columns, most| {
                let mut frames = image_frames(columns, most);
                for i in 1..frames.len() {
                    let bits = frames[i - 1].bits().len();
                    match frames[i - 1].steps.last() {
                        Some((place, Step::Move(_))) if place.state.is_solid() && bits > 501 => {
                            frames[i].start = place.start();
                            let moved = frames[i - 1].steps.pop();
                            frames[i].steps.splice(..0, moved);
                        }
                        _ => {}
                    }
                }
                frames
            })
        },
    ),
    (
        "takes a frame's first word for a later one",
        |bitmap, how, out, answer| {
            closing(bitmap, how, out, answer, |coding, most| {
                let [.., before, last] = &coding.frames[..] else {
                    return coding.is_full(most);
                };
                let in_run = before.end().due == Due::FurtherWord;
                match last.steps[..] {
                    [(place, Step::Closing(_)), (_, Step::Move(state))] if in_run => {
                        coding.place = Place {
                            state,
                            due: coding.place.due,
                            x: coding.place.x,
                            ..place
                        };
                    }
                    _ => {}
                }
                coding.is_full(most)
            })
        },
    ),
    ("forgets the right edge", |bitmap, how, out, answer| {
        testing(bitmap, how, out, answer, |place, _| is_first(place))
    }),
    ("tests at column 1724", |bitmap, how, out, answer| {
        testing(bitmap, how, out, answer, |place, x| {
            is_first(place) || x == EDGE - 1
        })
    }),
    ("tests at column 0", |bitmap, how, out, answer| {
        testing(bitmap, how, out, answer, |place, x| {
            is_first(place) || x == 0
        })
    }),
    ("tests by X before the word", |bitmap, how, out, answer| {
        testing(bitmap, how, out, answer, |place, _| {
            is_first(place) || place.x == EDGE
        })
    }),
    (
        "tests at the edge only a word that lays columns",
        |bitmap, how, out, answer| {
            testing(bitmap, how, out, answer, |place, x| {
                is_first(place) || x == EDGE && place.x != EDGE
            })
        },
    ),
    ("tests every closing word", |bitmap, how, out, answer| {
        testing(bitmap, how, out, answer, |_, _| true)
    }),
    ("leaves out a last word of 0", |bitmap, how, out, answer| {
        with_frames(bitmap, how, out, answer, |columns, most| {
            let mut frames = image_frames(columns, most);
            let last = frames.last_mut().expect("a frame");
            last.steps.pop_if(|(_, step)| *step == Step::Closing(0));
            frames.retain(|frame| !frame.steps.is_empty());
            frames
        })
    }),
    (
        "leaves out a last word of 0 after ones",
        |bitmap, how, out, answer| {
            with_frames(bitmap, how, out, answer, |columns, most| {
                let mut frames = image_frames(columns, most);
                let last = frames.last_mut().expect("a frame");
                if let [.., (_, Step::AllOnes), (_, Step::Closing(0))] = last.steps[..] {
                    last.steps.pop();
                }
                frames
            })
        },
    ),
    (
        "puts a last word into the frame before",
        |bitmap, how, out, answer| {
            with_frames(bitmap, how, out, answer, |columns, most| {
                let mut frames = image_frames(columns, most);
                let last = frames.last().expect("a frame").steps.clone();
                if let [(_, Step::Closing(_))] = last[..] {
                    frames.pop();
                    frames.last_mut().expect("a frame").steps.extend(last);
                }
                frames
            })
        },
    ),
    (
        "opens a frame after a page that fills one",
        |bitmap, how, out, answer| {
            with_frames(bitmap, how, out, answer, |columns, most| {
                let mut frames = image_frames(columns, most);
                let last = frames.last().expect("a frame");
                if last.bits().len() > 500 {
                    let start = last.end().start();
                    let steps = Vec::new();
                    frames.push(Reading { start, steps });
                }
                frames
            })
        },
    ),
    ("has no frame of no bits", |bitmap, how, out, answer| {
        with_changed(bitmap, how, out, answer, |records| {
            records.remove(1);
        })
    }),
    ("counts records from 1", |bitmap, how, out, answer| {
        with_changed(bitmap, how, out, answer, |records| {
            for frame in data(records) {
                frame.header.sequence = (frame.header.sequence + 1) % 4;
            }
        })
    }),
    ("counts 3 records", |bitmap, how, out, answer| {
        with_changed(bitmap, how, out, answer, |records| {
            for (i, frame) in (0..).zip(data(records)) {
                frame.header.sequence = i % 3;
            }
        })
    }),
    (
        "takes X as the next column to lay",
        |bitmap, how, out, answer| {
            with_changed(bitmap, how, out, answer, |records| {
                for frame in data(records).skip(2) {
                    frame.header.x = (frame.header.x + 1) % 1726;
                }
            })
        },
    ),
    (
        "takes X without an open column",
        |bitmap, how, out, answer| {
            with_records(bitmap, how, out, answer, |columns, most| {
                let frames = image_frames(columns, most);
                let mut records = records(how.settings, &frames);
                let later = data(&mut records).skip(2).zip(&frames);
                for (frame, _) in later.filter(|(_, before)| before.is_open()) {
                    frame.header.x = (frame.header.x + 1725) % 1726;
                }
                records
            })
        },
    ),
    (
        "says the page's lengths in each header",
        |bitmap, how, out, answer| {
            with_changed(bitmap, how, out, answer, |records| {
                for frame in data(records) {
                    (frame.header.black, frame.header.white) = (7, 7);
                }
            })
        },
    ),
    ("fills unused bits", |bitmap, how, out, answer| {
        with_changed(bitmap, how, out, answer, |records| {
            for frame in data(records) {
                frame.data[usize::from(frame.header.count)..].fill(1);
            }
        })
    }),
    ("fills the padding", |bitmap, how, out, answer| {
        with_changed(bitmap, how, out, answer, |records| {
            for frame in data(records) {
                frame.padding = 0b1111111;
            }
        })
    }),
];

#[test]
fn the_right_call_agrees() {
    let tally = compare(right, NUMBER, SEED).expect("no difference");
    let counts = &tally.counts;
    assert_eq!(counts.all, NUMBER);
    assert!((NUMBER / 2..NUMBER).contains(&counts.spoilt));
    assert!(counts.numbers[0] > NUMBER / 4, "{counts}");
    let part = |least| least * NUMBER / ENOUGH;
    let rare = tally.rare(part(LEAST), part(LEAST_OF_KIND));
    assert!(rare.is_empty(), "{rare:?}");
    let seen: u64 = NUMBERS.iter().map(|n| counts.numbers[*n as usize]).sum();
    assert_eq!(seen + counts.numbers[0], NUMBER);
}

#[test]
fn wrong_calls_differ() {
    for (name, wrong) in WRONG {
        let difference = compare(wrong, NUMBER, SEED).expect_err(name);
        let (index, seed) = replayed(&difference, "write-input");
        assert!(check(right, index, seed).is_ok());
        assert!(check(wrong, index, seed).is_err(), "{name}");
    }
}

#[test]
fn inputs_are_refused_by_their_first_flaw() {
    for index in 0..2000 {
        let seen = check(right, index, SEED).expect("no difference");
        assert_eq!(seen.number, seen.flaws.first().copied().unwrap_or(0));
        assert!(seen.kinds().all(|kind| kinds().any(|own| own == kind)));
    }
}

#[test]
fn every_rate_and_all_settings_are_asked_for() {
    let hows = (0..1000).map(|index| {
        let (_, input) = Input::random(&mut Random::of_input(index, SEED));
        (input.how.rate, input.how.settings)
    });
    let hows: Vec<(u64, u64)> = hows.collect();
    for rate in RATES {
        for settings in (0..16).filter(|number| are_settings(*number)) {
            assert!(hows.contains(&(rate, settings)));
        }
    }
}

#[test]
fn too_few_of_a_kind_fail_a_long_run() {
    // So many inputs, and so many too few of two kinds.
    let tally = |all, of_19, of_open| {
        let mut tally = Tally::default();
        tally.counts.all = all;
        tally.counts.numbers = [LEAST; 26];
        tally.kinds = kinds().map(|kind| (kind, LEAST_OF_KIND)).collect();
        tally.counts.numbers[19] -= of_19;
        *tally.kinds.get_mut("ends open").expect("a kind") -= of_open;
        tally.enough()
    };
    assert!(tally(ENOUGH, 0, 0).is_ok());
    assert!(tally(ENOUGH - 1, 1, 1).is_ok());
    let failed = |of_19, of_open| tally(ENOUGH, of_19, of_open).expect_err("too few");
    assert!(failed(1, 0).starts_with("too few inputs: refused by 19 ("));
    assert!(failed(0, 1).starts_with("too few inputs: ends open ("));
}
