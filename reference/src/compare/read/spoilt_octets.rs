//! Octets of a file that are refused, whatever they are the file of, or on the
//! edge of it.

// All that spoil in one way have one type, whether they change the length or not.
#![allow(clippy::ptr_arg)]

use crate::file::{turn_sent_bit, DATA, END, RECORD, SET_UP};
use crate::frame::{CHECK, HEADER, OCTETS, PADDING};
use crate::random::Random;

type Spoil = fn(&mut Random, &mut Vec<u8>);

/// Each makes of an accepted file one that is refused by the number, by 5 only
/// if checks are compared.
const BY_NUMBER: [(u64, Spoil); 8] = [
    (1, cut),
    (1, cut_at_record),
    (1, cut_out_of_place),
    (2, unknown_pair),
    (2, only_unknown_pair),
    (4, turn_sync_and_check),
    (5, other_check),
    (5, turn_bit_checked),
];

/// Each makes any file, refused or not.
const CHANGES: [Spoil; 2] = [other_known_pair, turn_any_bit];

pub fn spoil(random: &mut Random, file: &mut Vec<u8>) {
    if random.chance(14) {
        let (_, spoil) = random.pick(&BY_NUMBER);
        spoil(random, file);
    } else {
        random.pick(&CHANGES)(random, file);
    }
}

fn cut(random: &mut Random, file: &mut Vec<u8>) {
    file.truncate(random.below(file.len() as u64) as usize);
}

/// Cuts where a record begins, or where nearly all of it is there.
fn cut_at_record(random: &mut Random, file: &mut Vec<u8>) {
    let at = RECORD * random.below(1 + frames(file)) as usize;
    let more = random.pick(&[0, 1, 2, 3, RECORD - 1]);
    let left = if at + more < file.len() {
        at + more
    } else {
        file.len() - 1
    };
    file.truncate(left);
}

/// The pair of a record that has a frame, often out of its place, and too
/// little after it.
fn cut_out_of_place(random: &mut Random, file: &mut Vec<u8>) {
    let last = frames(file);
    let any = random.below(1 + last);
    let at = RECORD * random.pick(&[0, 0, any, last]) as usize;
    file.truncate(at);
    file.extend(random.pick(&[SET_UP, DATA, DATA]));
    file.resize(at + 2 + random.below(OCTETS as u64) as usize, 0);
}

fn unknown_pair(random: &mut Random, file: &mut Vec<u8>) {
    put_unknown_pair(random, file);
}

/// The same, and nothing or little of the rest.
fn only_unknown_pair(random: &mut Random, file: &mut Vec<u8>) {
    let at = put_unknown_pair(random, file);
    file.truncate(at + 2 + random.pick(&[0, 0, 1, OCTETS - 1]));
}

/// Puts one in the place of a record's, and gives that place.
fn put_unknown_pair(random: &mut Random, file: &mut [u8]) -> usize {
    let at = RECORD * random.below(1 + frames(file)) as usize;
    let any = (random.number() as u16).to_le_bytes();
    let own = [file[at], file[at + 1]];
    let other = random.pick(&[
        [76, 58],
        [2, 56],
        [2, 57],
        [76, 55],
        [74, 57],
        [own[1], own[0]],
        [own[0], own[1] ^ 4],
        any,
    ]);
    let pair = if is_known(other) { [0, 0] } else { other };
    file[at..at + 2].copy_from_slice(&pair);
    at
}

fn is_known(pair: [u8; 2]) -> bool {
    [SET_UP, DATA, END].contains(&pair)
}

fn other_known_pair(random: &mut Random, file: &mut Vec<u8>) {
    let at = RECORD * random.below(1 + frames(file)) as usize;
    file[at..at + 2].copy_from_slice(&random.pick(&[SET_UP, DATA, END]));
}

/// Turns some bits of a check.
fn other_check(random: &mut Random, file: &mut Vec<u8>) {
    let wrong = 1 + random.below((1 << (PADDING - CHECK)) - 1);
    let wrong = random.pick(&[1, 1 << 11, wrong]);
    let bits = (CHECK..PADDING).filter(|bit| wrong >> (bit - CHECK) & 1 == 1);
    turn_bits(random, file, bits);
}

fn turn_sync_and_check(random: &mut Random, file: &mut Vec<u8>) {
    let sync = random.below(HEADER as u64) as usize;
    let check = CHECK + random.below((PADDING - CHECK) as u64) as usize;
    turn_bits(random, file, [sync, check]);
}

/// Turns a bit that the check is taken of.
fn turn_bit_checked(random: &mut Random, file: &mut Vec<u8>) {
    let bit = HEADER as u64 + random.below((CHECK - HEADER) as u64);
    turn_bits(random, file, [bit as usize]);
}

fn turn_any_bit(random: &mut Random, file: &mut Vec<u8>) {
    let bit = random.below(8 * OCTETS as u64);
    turn_bits(random, file, [bit as usize]);
}

/// Turns bits of one frame, often the last or the one before.
fn turn_bits(random: &mut Random, file: &mut [u8], bits: impl IntoIterator<Item = usize>) {
    let frames = frames(file);
    if frames > 0 {
        let any = random.below(frames);
        let last = frames - 1;
        let index = random.pick(&[any, any, last, last.saturating_sub(1)]);
        for bit in bits {
            turn_sent_bit(file, index as usize, bit);
        }
    }
}

/// The frames of a file that has one in each record but the last.
fn frames(file: &[u8]) -> u64 {
    ((file.len() - END.len()) / RECORD) as u64
}

#[cfg(test)]
mod tests {
    use super::*;
    use crate::file::read::read_page;
    use crate::file::stored;
    use crate::random::file::whole;
    use crate::register::{HandedIn, Order, Setting};

    #[test]
    fn spoilt_octets_are_refused_by_their_number() {
        let mut random = Random::new(5);
        let setting = Setting {
            generator: 4095,
            start: 4095,
            first_bit: 24,
            order: Order::HighFirst,
        };
        let check = HandedIn::of(setting, true);
        for _ in 0..200 {
            let file = stored(&whole(&mut random), setting);
            for (number, spoil) in BY_NUMBER {
                let mut file = file.clone();
                spoil(&mut random, &mut file);
                let refusal = read_page(&file, check, usize::MAX).expect_err("spoilt");
                assert_eq!(refusal.number, number);
            }
        }
    }
}
