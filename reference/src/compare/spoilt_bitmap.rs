//! Bitmaps that are refused.

// All that spoil in one way have one type, whether they change the length or not.
#![allow(clippy::ptr_arg)]

use crate::page::bitmap::{HEADER, LINE};
use crate::page::LINES;
use crate::random::Random;

type Spoil = fn(&mut Random, &mut Vec<u8>);

/// Each makes a legal bitmap, or one that is refused by 18, one that is refused
/// by 17.
const BY_17: [Spoil; 5] = [cut_header, other_width, odd_lines, no_lines, too_many_lines];

/// Each makes a legal bitmap one that is refused by 18.
const BY_18: [Spoil; 4] = [shorter, longer, other_lines, trailing_bit];

pub fn spoil(random: &mut Random, bitmap: &mut Vec<u8>) {
    let (by_18, by_17) = random.pick(&[(true, false), (false, true), (true, true)]);
    if by_18 {
        spoil_by_18(random, bitmap);
    }
    if by_17 {
        spoil_by_17(random, bitmap);
    }
}

pub fn spoil_by_17(random: &mut Random, bitmap: &mut Vec<u8>) {
    random.pick(&BY_17)(random, bitmap);
}

pub fn spoil_by_18(random: &mut Random, bitmap: &mut Vec<u8>) {
    random.pick(&BY_18)(random, bitmap);
}

fn cut_header(random: &mut Random, bitmap: &mut Vec<u8>) {
    bitmap.truncate(random.below(HEADER as u64) as usize);
}

fn other_width(random: &mut Random, bitmap: &mut Vec<u8>) {
    match random.below(8) {
        0 => bitmap.swap(0, 1),
        1 => bitmap[..2].fill(0),
        n => bitmap[n as usize % 2] ^= 1 + random.below(255) as u8,
    }
}

fn odd_lines(random: &mut Random, bitmap: &mut Vec<u8>) {
    let even = lines(bitmap);
    set_lines(bitmap, random.pick(&[even - 1, even + 1]));
    fit(random, bitmap);
}

fn no_lines(random: &mut Random, bitmap: &mut Vec<u8>) {
    set_lines(bitmap, 0);
    fit(random, bitmap);
}

fn too_many_lines(random: &mut Random, bitmap: &mut Vec<u8>) {
    set_lines(bitmap, LINES + 2);
    match random.below(4) {
        0 => fit(random, bitmap),
        1 => {}
        _ => set_lines(
            bitmap,
            LINES + 1 + random.below(65535 - LINES as u64) as usize,
        ),
    }
}

fn shorter(random: &mut Random, bitmap: &mut Vec<u8>) {
    let octets = bitmap.len() - HEADER;
    let fewer = match random.below(4) {
        0 => LINE,
        1 => octets,
        2 => 1 + random.below(octets as u64) as usize,
        _ => 1,
    };
    bitmap.truncate(bitmap.len() - fewer);
}

fn longer(random: &mut Random, bitmap: &mut Vec<u8>) {
    let more = random.pick(&[1, 1, 2, LINE, 2 * LINE]);
    let octet = random.pick(&[0, 0, 0xFF]);
    bitmap.resize(bitmap.len() + more, octet);
}

/// Lines that a page may have, other than the octets have.
fn other_lines(random: &mut Random, bitmap: &mut Vec<u8>) {
    let own = lines(bitmap);
    let any = 2 + 2 * random.below(LINES as u64 / 2) as usize;
    let other = random.pick(&[2, 4, 8, any]);
    set_lines(bitmap, if other == own { own % LINES + 2 } else { other });
}

fn trailing_bit(random: &mut Random, bitmap: &mut Vec<u8>) {
    let lines = lines(bitmap);
    let any = random.below(lines as u64) as usize;
    let line = random.pick(&[0, lines - 1, any]);
    bitmap[HEADER + LINE * line + LINE - 1] |= random.pick(&[0b01, 0b10, 0b11]);
}

fn lines(bitmap: &[u8]) -> usize {
    usize::from(u16::from_le_bytes([bitmap[2], bitmap[3]]))
}

fn set_lines(bitmap: &mut [u8], lines: usize) {
    bitmap[2..HEADER].copy_from_slice(&(lines as u16).to_le_bytes());
}

/// Often makes the octets those of the lines in the header.
fn fit(random: &mut Random, bitmap: &mut Vec<u8>) {
    if random.chance(8) {
        bitmap.resize(HEADER + LINE * lines(bitmap), 0);
    }
}

#[cfg(test)]
mod tests {
    use super::*;
    use crate::page::bitmap::{read, written};
    use crate::random;
    use crate::refusal::Refusal;

    fn refused(bitmap: &[u8], number: u64) -> bool {
        read(bitmap) == Err(Refusal::of_no_record(number))
    }

    #[test]
    fn spoilt_bitmaps_are_refused_by_their_number() {
        let mut random = Random::new(17);
        for _ in 0..200 {
            let legal = written(&random::page::page(&mut random));
            for spoil_by_17 in BY_17 {
                let mut bitmap = legal.clone();
                spoil_by_17(&mut random, &mut bitmap);
                assert!(refused(&bitmap, 17));
                for spoil_by_18 in BY_18 {
                    let mut bitmap = legal.clone();
                    spoil_by_18(&mut random, &mut bitmap);
                    assert!(refused(&bitmap, 18));
                    spoil_by_17(&mut random, &mut bitmap);
                    assert!(refused(&bitmap, 17));
                }
            }
        }
    }
}
