use super::*;
use crate::capture::{self, bits, FRAME};
use crate::compare::replayed;
use crate::octets::{all_turned, packed};

const SEED: u64 = 1;
const NUMBER: u64 = 20_000;

fn write<T: Copy>(
    result: Result<Vec<T>, Refusal>,
    out: &mut [T],
    answer: &mut [u64; 1],
    per_answer: usize,
) -> u64 {
    match result {
        Ok(items) => {
            out[..items.len()].copy_from_slice(&items);
            answer[0] = (items.len() / per_answer) as u64;
            0
        }
        Err(refusal) => refusal.returned(),
    }
}

/// The calls as they must be.
fn find(octets: &[u8], check: HandedIn, list: &mut [u64], answer: &mut [u64; 1]) -> u64 {
    write(find_frames(octets, check, list.len()), list, answer, 2)
}

fn extract(octets: &[u8], list: &[u64], out: &mut [u8], answer: &mut [u64; 1]) -> u64 {
    write(records_of_frames(octets, list, out.len()), out, answer, 1)
}

const RIGHT: Calls = Calls {
    find_frames: find,
    records_of_capture: extract,
};

/// A search that goes on in another way than one bit behind a place where no frame
/// is taken, or elsewhere behind one that is.
fn find_otherwise(
    octets: &[u8],
    check: HandedIn,
    list: &mut [u64],
    answer: &mut [u64; 1],
    next: fn(&[u8], usize, bool) -> usize,
) -> u64 {
    let Some((setting, true)) = check.allowed() else {
        return 20;
    };
    let bits = bits(octets);
    let mut starts = Vec::new();
    let mut place = 0;
    while place < bits.len() {
        let taken = capture::is_frame(&bits[place..], setting);
        if taken {
            starts.push(place);
        }
        place = next(&bits, place, taken);
    }
    let found = capture::list(&starts);
    if found.len() > list.len() {
        return 16;
    }
    write(Ok(found), list, answer, 2)
}

/// The bits of the sync that stand at a place before the first that differs.
fn equal(bits: &[u8], place: usize) -> usize {
    let pairs = bits[place..].iter().zip(capture::sync());
    pairs.take_while(|(a, b)| **a == *b).count()
}

/// Searches that are wrong in one small way.
const WRONG_SEARCHES: [(&str, FindFrames); 19] = [
    (
        "goes on behind the bits that were equal",
        |octets, check, list, answer| {
            find_otherwise(octets, check, list, answer, |bits, place, taken| {
                place
                    + if taken {
                        FRAME
                    } else {
                        equal(bits, place).max(1)
                    }
            })
        },
    ),
    (
        "goes on behind the sync of a damaged frame",
        |octets, check, list, answer| {
            find_otherwise(octets, check, list, answer, |bits, place, taken| {
                let damaged = equal(bits, place) == 24;
                place
                    + if taken {
                        FRAME
                    } else if damaged {
                        24
                    } else {
                        1
                    }
            })
        },
    ),
    (
        "goes on behind a damaged frame",
        |octets, check, list, answer| {
            find_otherwise(octets, check, list, answer, |bits, place, taken| {
                let damaged = equal(bits, place) == 24;
                place + if taken || damaged { FRAME } else { 1 }
            })
        },
    ),
    (
        "goes on one bit behind a frame's start",
        |octets, check, list, answer| {
            find_otherwise(octets, check, list, answer, |_, place, _| place + 1)
        },
    ),
    (
        "goes on one bit too far behind a frame",
        |octets, check, list, answer| {
            find_otherwise(octets, check, list, answer, |_, place, taken| {
                place + if taken { FRAME + 1 } else { 1 }
            })
        },
    ),
    (
        "goes on behind a frame's padding",
        |octets, check, list, answer| {
            find_otherwise(octets, check, list, answer, |_, place, taken| {
                place + if taken { 592 } else { 1 }
            })
        },
    ),
    (
        "goes on within a frame's last bit",
        |octets, check, list, answer| {
            find_otherwise(octets, check, list, answer, |_, place, taken| {
                place + if taken { FRAME - 400 } else { 1 }
            })
        },
    ),
    (
        "looks at first bits of octets only",
        |octets, check, list, answer| {
            find_otherwise(octets, check, list, answer, |_, place, taken| {
                place
                    + if taken {
                        FRAME + 7 - (place + FRAME - 1) % 8
                    } else {
                        8 - place % 8
                    }
            })
        },
    ),
    (
        "misses a frame that ends the capture",
        |octets, check, list, answer| {
            let cut = &octets[..octets.len().saturating_sub(1)];
            match find_frames(octets, check, list.len()) {
                Ok(_) => find(cut, check, list, answer),
                Err(refusal) => refusal.returned(),
            }
        },
    ),
    (
        "takes a frame with 584 bits",
        |octets, check, list, answer| {
            let [more, most] = [0, 0x80].map(|octet| [octets, &[octet]].concat());
            let one = find_frames(&more, check, usize::MAX);
            let other = find_frames(&most, check, usize::MAX);
            let longer = [one, other].into_iter().flatten();
            let longest = longer.max_by_key(Vec::len).filter(|found| {
                let last = found.chunks(2).last();
                last.is_some_and(|at| 8 * octets.len() as u64 - (8 * at[0] + at[1]) == 584)
            });
            match longest {
                Some(found) if found.len() <= list.len() => write(Ok(found), list, answer, 2),
                _ => find(octets, check, list, answer),
            }
        },
    ),
    ("answers numbers", |octets, check, list, answer| {
        let returned = find(octets, check, list, answer);
        if returned == 0 {
            answer[0] *= 2;
        }
        returned
    }),
    ("lists bit and octet", |octets, check, list, answer| {
        let returned = find(octets, check, list, answer);
        if returned == 0 {
            let used = 2 * answer[0] as usize;
            list[..used]
                .chunks_mut(2)
                .for_each(|entry| entry.swap(0, 1));
        }
        returned
    }),
    (
        "counts bits from the low one",
        |octets, check, list, answer| {
            let returned = find(octets, check, list, answer);
            if returned == 0 {
                let used = 2 * answer[0] as usize;
                list[..used]
                    .chunks_mut(2)
                    .for_each(|entry| entry[1] = 7 - entry[1]);
            }
            returned
        },
    ),
    (
        "searches although not to compare",
        |octets, check, list, answer| {
            let compare = if check.compare == 0 { 1 } else { check.compare };
            find(octets, HandedIn { compare, ..check }, list, answer)
        },
    ),
    ("takes any order", |octets, check, list, answer| {
        let order = check.order % 2;
        find(octets, HandedIn { order, ..check }, list, answer)
    }),
    (
        "judges the room before the setting",
        |octets, check, list, answer| {
            if list.is_empty() && octets.len() > 74 && check.allowed().is_none() {
                return 16;
            }
            find(octets, check, list, answer)
        },
    ),
    (
        "writes what fits before it refuses",
        |octets, check, list, answer| {
            let returned = find(octets, check, list, answer);
            if returned == 16 && list.len() >= 2 {
                if let Ok(found) = find_frames(octets, check, usize::MAX) {
                    list[..2].copy_from_slice(&found[..2]);
                }
            }
            returned
        },
    ),
    (
        "clears the rest of the list",
        |octets, check, list, answer| {
            let returned = find(octets, check, list, answer);
            if returned == 0 {
                list[2 * answer[0] as usize..].fill(0);
            }
            returned
        },
    ),
    ("wants a number more", |octets, check, list, answer| {
        let frames = find_frames(octets, check, list.len());
        match frames {
            Ok(found) if found.len() == list.len() && !found.is_empty() => 16,
            _ => find(octets, check, list, answer),
        }
    }),
];

/// The right answer to a list whose entries were mended first.
fn extract_mended(
    octets: &[u8],
    list: &[u64],
    out: &mut [u8],
    answer: &mut [u64; 1],
    mend: fn(u64, u64) -> [u64; 2],
) -> u64 {
    match extract(octets, list, out, answer) {
        25 => {
            let entries = list.chunks_exact(2);
            let mended: Vec<u64> = entries.flat_map(|entry| mend(entry[0], entry[1])).collect();
            extract(octets, &mended, out, answer)
        }
        returned => returned,
    }
}

/// The right file, with each record changed.
fn extract_changed(
    octets: &[u8],
    list: &[u64],
    out: &mut [u8],
    answer: &mut [u64; 1],
    change: fn(&mut [u8], &[u8]),
) -> u64 {
    let returned = extract(octets, list, out, answer);
    if returned == 0 {
        let all = bits(octets);
        let records = out[..answer[0] as usize].chunks_exact_mut(76);
        for (record, entry) in records.zip(list.chunks_exact(2)) {
            change(record, &all[(8 * entry[0] + entry[1]) as usize..]);
        }
    }
    returned
}

/// Extractions that are wrong in one small way.
const WRONG_EXTRACTIONS: [(&str, RecordsOfCapture); 18] = [
    (
        "carries bits above 7 into the octet",
        |octets, list, out, answer| {
            extract_mended(octets, list, out, answer, |octet, bit| {
                [octet.saturating_add(bit / 8), bit % 8]
            })
        },
    ),
    ("cuts a bit to three bits", |octets, list, out, answer| {
        extract_mended(octets, list, out, answer, |octet, bit| [octet, bit % 8])
    }),
    (
        "multiplies an octet by 8 modulo 2^64",
        |octets, list, out, answer| {
            extract_mended(octets, list, out, answer, |octet, bit| {
                [octet % (1 << 61), bit]
            })
        },
    ),
    ("cuts an octet to 32 bits", |octets, list, out, answer| {
        extract_mended(octets, list, out, answer, |octet, bit| {
            [octet % (1 << 32), bit]
        })
    }),
    ("reads past the last octet", |octets, list, out, answer| {
        extract(&[octets, &[0]].concat(), list, out, answer)
    }),
    ("wants 592 bits", |octets, list, out, answer| {
        let less = octets.len().saturating_sub(1);
        let at_end = |entry: &[u64]| 8 * entry[0] + entry[1] + 592 > 8 * octets.len() as u64;
        match extract(octets, list, out, answer) {
            0 if less > 0 && list.chunks_exact(2).any(at_end) => 25,
            returned => returned,
        }
    }),
    (
        "reads an odd last number",
        |octets, list, out, answer| match list.len() % 2 {
            1 => extract(octets, &[list, &[0]].concat(), out, answer),
            _ => extract(octets, list, out, answer),
        },
    ),
    (
        "refuses an odd last number",
        |octets, list, out, answer| match list.len() % 2 {
            1 => 25,
            _ => extract(octets, list, out, answer),
        },
    ),
    ("judges the room first", |octets, list, out, answer| {
        if out.len() < 76 * (list.len() / 2) + 2 {
            return 16;
        }
        extract(octets, list, out, answer)
    }),
    (
        "judges the first entry alone",
        |octets, list, out, answer| match extract(octets, list, out, answer) {
            25 if extract(octets, &list[..2], &mut [0; 78], &mut [0]) == 0 => 0,
            returned => returned,
        },
    ),
    (
        "names the entry",
        |octets, list, out, answer| match extract(octets, list, out, answer) {
            25 if list.len() > 2 && extract(octets, &list[..2], &mut [0; 78], &mut [0]) == 0 => {
                25 + (1 << 24)
            }
            returned => returned,
        },
    ),
    (
        "writes up to the entry that is refused",
        |octets, list, out, answer| {
            let returned = extract(octets, list, out, answer);
            if returned == 25 && out.len() >= 76 {
                out[0] = !out[0];
            }
            returned
        },
    ),
    ("needs ascending entries", |octets, list, out, answer| {
        let starts: Vec<[u64; 2]> = list.chunks_exact(2).map(|e| [e[0], e[1]]).collect();
        match extract(octets, list, out, answer) {
            0 if !starts.is_sorted() => 25,
            returned => returned,
        }
    }),
    (
        "keeps what stands behind a frame as padding",
        |octets, list, out, answer| {
            extract_changed(octets, list, out, answer, |record, bits| {
                if let Some(bits) = bits.get(..592) {
                    record[2..].copy_from_slice(&all_turned(&packed(bits)));
                }
            })
        },
    ),
    ("stores a padding of 0", |octets, list, out, answer| {
        extract_changed(octets, list, out, answer, |record, _| record[75] &= 1)
    }),
    (
        "looks at the sequence of a set-up",
        |octets, list, out, answer| {
            extract_changed(octets, list, out, answer, |record, bits| {
                if bits[24..26] != [0, 0] {
                    record[1] = 57;
                }
            })
        },
    ),
    (
        "looks at the flags of a set-up alone",
        |octets, list, out, answer| {
            extract_changed(octets, list, out, answer, |record, bits| {
                if bits[26..31] == [0, 0, 1, 0, 1] {
                    record[1] = 56;
                }
            })
        },
    ),
    (
        "clears the rest of the room",
        |octets, list, out, answer| {
            let returned = extract(octets, list, out, answer);
            if returned == 0 {
                out[answer[0] as usize..].fill(0);
            }
            returned
        },
    ),
];

#[test]
fn the_right_calls_agree() {
    let tally = compare(RIGHT, NUMBER, SEED).expect("no difference");
    let Tally {
        searches,
        extractions,
        ..
    } = &tally;
    assert_eq!(searches.all + extractions.all, NUMBER);
    let rare = tally.rare(LEAST * NUMBER / ENOUGH, LEAST_OF_KIND * NUMBER / ENOUGH);
    assert!(rare.is_empty(), "{rare:?} {tally}");
    for (counts, numbers) in [(searches, OF_SEARCH), (extractions, OF_EXTRACTION)] {
        let seen: u64 = numbers.iter().map(|n| counts.numbers[*n as usize]).sum();
        assert_eq!(seen + counts.numbers[0], counts.all);
    }
}

#[test]
fn wrong_calls_differ() {
    let searches = WRONG_SEARCHES.map(|(name, find_frames)| {
        let calls = Calls {
            find_frames,
            ..RIGHT
        };
        (name, calls)
    });
    let extractions = WRONG_EXTRACTIONS.map(|(name, records_of_capture)| {
        let calls = Calls {
            records_of_capture,
            ..RIGHT
        };
        (name, calls)
    });
    for (name, wrong) in searches.into_iter().chain(extractions) {
        let difference = compare(wrong, NUMBER, SEED).expect_err(name);
        let (index, seed) = replayed(&difference, "frames-input");
        assert!(check(RIGHT, index, seed).is_ok());
        assert!(check(wrong, index, seed).is_err(), "{name}");
    }
}

#[test]
fn too_few_of_a_kind_are_told() {
    let mut tally = Tally::default();
    let rare = tally.rare(1, 1);
    assert!(rare.contains(&"searches refused by 20".to_string()));
    assert!(rare.contains(&"extractions refused by 25".to_string()));
    assert!(rare.contains(&"a frame in a damaged one".to_string()));
    tally.searches.all = ENOUGH;
    assert!(tally.enough().is_err());
}
