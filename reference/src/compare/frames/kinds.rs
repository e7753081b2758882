//! The kinds of inputs that there must be enough of, each told by what the input
//! is and not by how it was made.

use super::input::{most_numbers, Extraction, Search};
use crate::capture::{bits, is_frame, is_set_up, sync, BEHIND_SEQUENCE, FRAME, OF_SET_UP, SYNC};
use crate::refusal::Refusal;
use crate::register::{Order, Setting};

/// A capture that was searched and the list not refused.
struct Searched<'a> {
    input: &'a Search,
    bits: Vec<u8>,
    /// Where a sync stands, in a frame or not.
    syncs: Vec<usize>,
    /// Those of the syncs outside all frames from which enough bits are left: there
    /// the check differs.
    others: Vec<usize>,
}

impl Searched<'_> {
    fn of(input: &Search) -> Searched<'_> {
        let bits = bits(&input.octets);
        let sync = sync();
        let has_sync = |i: &usize| bits[*i..].starts_with(&sync);
        let syncs: Vec<usize> = (0..bits.len()).filter(has_sync).collect();
        let others = syncs.iter().copied();
        let others = others.filter(|i| {
            let mut frames = input.starts.iter();
            frames.all(|start| !(*start..start + FRAME).contains(i)) && i + FRAME <= bits.len()
        });
        Searched {
            input,
            others: others.collect(),
            bits,
            syncs,
        }
    }

    fn starts(&self) -> &[usize] {
        &self.input.starts
    }

    fn setting(&self) -> Setting {
        self.input.setting
    }

    fn finds_at(&self, bit: usize) -> bool {
        self.starts().iter().any(|start| start % 8 == bit)
    }

    /// Whether such a place stands behind the start of a frame and within it.
    fn has_within(&self, is_such: impl Fn(usize) -> bool) -> bool {
        let within = |start: &usize| {
            let mut syncs = self.syncs.iter();
            syncs.any(|i| (start + 1..start + FRAME).contains(i) && is_such(*i))
        };
        self.starts().iter().any(within)
    }

    /// Whether a frame starts so many bits behind a sync that starts none.
    fn finds_behind(&self, distances: std::ops::Range<usize>) -> bool {
        self.starts().iter().any(|start| {
            let mut others = self.others.iter();
            others.any(|other| other < start && distances.contains(&(start - other)))
        })
    }

    /// Whether the first bits of a sync stand before a frame and go on in it, up to
    /// one that differs.
    fn has_begun_before(&self) -> bool {
        let sync = sync();
        let begun = |start: &usize| {
            (1..SYNC.min(start + 1)).any(|before| {
                let here = &self.bits[start - before..];
                let equal = here.iter().zip(&sync).take_while(|(a, b)| a == b).count();
                equal > before && equal < SYNC
            })
        };
        self.starts().iter().any(begun)
    }

    fn has_left(&self, places: &[usize], left: usize) -> bool {
        places.iter().any(|place| self.bits.len() - place == left)
    }

    /// Whether a sync that starts no frame would by the other order.
    fn is_right_by_other(&self) -> bool {
        let order = match self.setting().order {
            Order::LowFirst => Order::HighFirst,
            Order::HighFirst => Order::LowFirst,
        };
        let other = Setting {
            order,
            ..self.setting()
        };
        let mut others = self.others.iter();
        others.any(|i| is_frame(&self.bits[*i..], other))
    }

    fn room(&self) -> usize {
        self.input.memory.room
    }

    fn suffices(&self) -> usize {
        most_numbers(&self.input.octets)
    }
}

type Found = (&'static str, fn(&Searched<'_>) -> bool);

const FOUND: [Found; 29] = [
    ("no frame", |s| s.starts().is_empty()),
    ("a frame at bit 0", |s| s.finds_at(0)),
    ("a frame at bit 1", |s| s.finds_at(1)),
    ("a frame at bit 2", |s| s.finds_at(2)),
    ("a frame at bit 3", |s| s.finds_at(3)),
    ("a frame at bit 4", |s| s.finds_at(4)),
    ("a frame at bit 5", |s| s.finds_at(5)),
    ("a frame at bit 6", |s| s.finds_at(6)),
    ("a frame at bit 7", |s| s.finds_at(7)),
    ("ten frames", |s| s.starts().len() >= 10),
    ("as many frames as there can be", |s| {
        !s.starts().is_empty() && 2 * s.starts().len() == s.suffices()
    }),
    ("frames low bit first", |s| {
        !s.starts().is_empty() && s.setting().order == Order::LowFirst
    }),
    ("frames high bit first", |s| {
        !s.starts().is_empty() && s.setting().order == Order::HighFirst
    }),
    ("a sync in a frame", |s| s.has_within(|_| true)),
    ("a frame in a frame", |s| {
        s.has_within(|i| is_frame(&s.bits[i..], s.setting()))
    }),
    ("a check that differs", |s| !s.others.is_empty()),
    ("a check right by the other order", |s| {
        s.is_right_by_other()
    }),
    ("a frame in a damaged one", |s| s.finds_behind(SYNC..FRAME)),
    ("a frame 18 bits behind a sync", |s| s.finds_behind(18..19)),
    ("a frame 23 bits behind a sync", |s| s.finds_behind(23..24)),
    ("a sync begun before a frame", |s| s.has_begun_before()),
    ("a sync with fewer bits left", |s| {
        let mut syncs = s.syncs.iter();
        syncs.any(|i| i + FRAME > s.bits.len())
    }),
    ("a sync with 584 bits left", |s| s.has_left(&s.syncs, 584)),
    ("a frame with 585 bits left", |s| {
        s.has_left(s.starts(), 585)
    }),
    ("a list just long enough", |s| {
        s.room() == 2 * s.starts().len() && s.room() > 0
    }),
    ("a list of odd length", |s| s.room() % 2 == 1),
    ("a list that always suffices", |s| s.room() == s.suffices()),
    ("a list one shorter", |s| s.room() + 1 == s.suffices()),
    ("fewer octets than a frame has", |s| {
        s.input.octets.len() < 74
    }),
];

type NotFound = (&'static str, u64, fn(&Search) -> bool);

/// Refused searches, by the number.
const NOT_FOUND: [NotFound; 5] = [
    ("20, not compared", 20, |input| {
        input.check.compare == 0 && input.check.allowed().is_some()
    }),
    ("20, another setting", 20, |input| {
        input.check.allowed().is_none()
    }),
    ("20 before 16", 20, |input| {
        input.memory.room < 2 * input.starts.len()
    }),
    ("16 by a number", 16, |input| {
        input.memory.room + 1 == 2 * input.starts.len()
    }),
    ("16 by a list of none", 16, |input| input.memory.room == 0),
];

pub fn of_search<T>(input: &Search, expected: &Result<T, Refusal>) -> Vec<&'static str> {
    match expected {
        Ok(_) => {
            let searched = Searched::of(input);
            let kinds = FOUND.iter().filter(|(_, is)| is(&searched));
            kinds.map(|(name, _)| *name).collect()
        }
        Err(refusal) => {
            let kinds = NOT_FOUND.iter();
            let kinds = kinds.filter(|(_, number, is)| *number == refusal.number && is(input));
            kinds.map(|(name, ..)| *name).collect()
        }
    }
}

pub fn all_of_search() -> Vec<&'static str> {
    let found = FOUND.iter().map(|(name, _)| *name);
    found
        .chain(NOT_FOUND.iter().map(|(name, ..)| *name))
        .collect()
}

/// An extraction, with what its list says.
struct Listed<'a> {
    input: &'a Extraction,
    bits: Vec<u8>,
    /// The entries, each with whether it is allowed.
    entries: Vec<([u64; 2], bool)>,
}

impl Listed<'_> {
    fn of(input: &Extraction) -> Listed<'_> {
        let length = 8 * input.octets.len() as u128;
        let entries = input.list.chunks_exact(2).map(|entry| {
            let [octet, bit] = [entry[0], entry[1]];
            let start = 8 * u128::from(octet) + u128::from(bit);
            let allowed = bit < 8 && start + FRAME as u128 <= length;
            ([octet, bit], allowed)
        });
        Listed {
            input,
            bits: bits(&input.octets),
            entries: entries.collect(),
        }
    }

    /// Where the entries start that are allowed.
    fn starts(&self) -> Vec<usize> {
        let allowed = self.entries.iter().filter(|(_, allowed)| *allowed);
        allowed
            .map(|([octet, bit], _)| (8 * octet + bit) as usize)
            .collect()
    }

    /// Whether the frame of some entry is such.
    fn has(&self, is_such: impl Fn(&[u8]) -> bool) -> bool {
        let starts = self.starts();
        let mut frames = starts.iter().map(|start| &self.bits[*start..][..FRAME]);
        frames.any(is_such)
    }

    fn has_pair(&self, is_such: impl Fn(usize, usize) -> bool) -> bool {
        let starts = self.starts();
        starts.windows(2).any(|pair| is_such(pair[0], pair[1]))
    }

    fn outside(&self) -> Vec<usize> {
        let entries = 0..self.entries.len();
        entries.filter(|i| !self.entries[*i].1).collect()
    }

    /// Whether an entry that is not allowed is such.
    fn has_outside(&self, is_such: impl Fn(u64, u64) -> bool) -> bool {
        let mut outside = self.entries.iter().filter(|(_, allowed)| !allowed);
        outside.any(|([octet, bit], _)| is_such(*octet, *bit))
    }

    fn file(&self) -> usize {
        76 * self.entries.len() + 2
    }
}

type Extracted = (&'static str, fn(&Listed<'_>) -> bool);

const EXTRACTED: [Extracted; 18] = [
    ("a list of none", |l| l.input.list.is_empty()),
    ("a single number", |l| l.input.list.len() == 1),
    ("an odd last number", |l| l.input.list.len() % 2 == 1),
    ("ten entries", |l| l.entries.len() >= 10),
    ("entries that descend", |l| {
        l.has_pair(|one, next| next < one)
    }),
    ("an entry twice", |l| l.has_pair(|one, next| next == one)),
    ("entries that overlap", |l| {
        l.has_pair(|one, next| one < next && next < one + FRAME)
    }),
    ("entries end to end", |l| {
        l.has_pair(|one, next| next == one + FRAME)
    }),
    ("an entry at octet 0 bit 0", |l| l.starts().contains(&0)),
    ("an entry with 585 bits left", |l| {
        l.has(|_| true) && l.starts().contains(&(l.bits.len() - FRAME))
    }),
    ("an entry without a sync", |l| {
        l.has(|frame| !frame.starts_with(&sync()))
    }),
    ("a set-up", |l| l.has(is_set_up)),
    ("a set-up of sequence 3", |l| {
        l.has(|frame| is_set_up(frame) && frame[24..26] == [1, 1])
    }),
    ("a set-up but for a bit", |l| {
        l.has(|frame| {
            let own = &frame[BEHIND_SEQUENCE..][..OF_SET_UP.len()];
            own.iter().zip(OF_SET_UP).filter(|(a, b)| *a != b).count() == 1
        })
    }),
    ("a 1 behind the frame's bits", |l| {
        let follows = |start: &usize| l.bits[start + FRAME..].iter().take(7).any(|bit| *bit == 1);
        l.starts().iter().any(follows)
    }),
    ("a room just large enough", |l| {
        l.input.memory.room == l.file()
    }),
    ("room for an entry more", |l| {
        l.input.memory.room >= l.file() + 76
    }),
    ("an odd last number not allowed", |l| {
        let last = l.input.list.last();
        l.input.list.len() % 2 == 1 && last.is_some_and(|number| *number > 8 * l.bits.len() as u64)
    }),
];

type NotExtracted = (&'static str, u64, fn(&Listed<'_>) -> bool);

/// Refused extractions, by the number.
const NOT_EXTRACTED: [NotExtracted; 13] = [
    ("a bit above 7", 25, |l| {
        l.has_outside(|octet, bit| bit > 7 && 8 * u128::from(octet) < l.bits.len() as u128)
    }),
    ("a bit above 7 of a frame that is there", 25, |l| {
        let length = l.bits.len() as u128;
        l.has_outside(|octet, bit| {
            bit > 7 && 8 * u128::from(octet) + u128::from(bit) + FRAME as u128 <= length
        })
    }),
    ("584 bits left", 25, |l| {
        let length = l.bits.len() as u128;
        l.has_outside(|octet, bit| {
            bit < 8 && 8 * u128::from(octet) + u128::from(bit) + 584 == length
        })
    }),
    ("no bits left", 25, |l| {
        l.has_outside(|octet, bit| bit == 0 && octet == l.input.octets.len() as u64)
    }),
    ("an octet of 2^61 or more", 25, |l| {
        l.has_outside(|octet, bit| bit < 8 && octet >= 1 << 61)
    }),
    ("an octet allowed modulo 2^61", 25, |l| {
        let octets = l.input.octets.len() as u64;
        l.has_outside(|octet, bit| {
            bit < 8 && octet >= 1 << 61 && (octet % (1 << 61)) + 74 <= octets
        })
    }),
    ("the octet 2^64 - 1", 25, |l| {
        l.has_outside(|octet, _| octet == u64::MAX)
    }),
    ("the bit 2^64 - 1", 25, |l| {
        l.has_outside(|_, bit| bit == u64::MAX)
    }),
    ("the first entry alone", 25, |l| {
        l.entries.len() > 1 && l.outside() == [0]
    }),
    ("the last entry alone", 25, |l| {
        l.entries.len() > 1 && l.outside() == [l.entries.len() - 1]
    }),
    ("25 before 16", 25, |l| l.input.memory.room < l.file()),
    ("16 by an octet", 16, |l| {
        l.input.memory.room + 1 == l.file()
    }),
    ("16 by a room of none", 16, |l| l.input.memory.room == 0),
];

pub fn of_extraction<T>(input: &Extraction, expected: &Result<T, Refusal>) -> Vec<&'static str> {
    let listed = Listed::of(input);
    match expected {
        Ok(_) => {
            let kinds = EXTRACTED.iter().filter(|(_, is)| is(&listed));
            kinds.map(|(name, _)| *name).collect()
        }
        Err(refusal) => {
            let kinds = NOT_EXTRACTED.iter();
            let kinds = kinds.filter(|(_, number, is)| *number == refusal.number && is(&listed));
            kinds.map(|(name, ..)| *name).collect()
        }
    }
}

pub fn all_of_extraction() -> Vec<&'static str> {
    let extracted = EXTRACTED.iter().map(|(name, _)| *name);
    let names = NOT_EXTRACTED.iter().map(|(name, ..)| *name);
    extracted.chain(names).collect()
}
