//! Random captures: frames in noise, and much that nearly is a frame.

use super::file::any_header;
use super::{noise, turn_one, Random};
use crate::capture::{bits, sync, BEHIND_SEQUENCE, FRAME, SYNC};
use crate::frame::{Frame, Header, CHECK, DATA};
use crate::octets::{bits_high_first, bits_low_first, packed};
use crate::register::{Order, Setting};

/// A capture of whole octets, its frames with checks by this setting.
pub fn capture(random: &mut Random, setting: Setting) -> Vec<u8> {
    let mut capture = match random.below(16) {
        0 => end_to_end(random, setting),
        1 => {
            let octets = random.pick(&[0, 1, 3, 73, 74, 75, 200]);
            noise(random, 8 * octets)
        }
        _ => pieces(random, setting),
    };
    match random.below(16) {
        0..=1 => end_with_left(random, setting, &mut capture, FRAME),
        2..=3 => end_with_left(random, setting, &mut capture, FRAME - 1),
        4..=7 => {}
        _ => {
            // Whole octets, by noise behind the last piece.
            let more = (8 - capture.len() % 8) % 8;
            capture.extend(noise(random, more));
        }
    }
    // Else by a cut.
    capture.truncate(capture.len() / 8 * 8);
    packed(&capture)
}

/// Frames with nothing between them, and less than one behind them.
fn end_to_end(random: &mut Random, setting: Setting) -> Vec<u8> {
    let number = random.below(20);
    let mut capture: Vec<u8> = (0..number).flat_map(|_| frame(random, setting)).collect();
    let more = random.below(8) as usize;
    capture.extend(noise(random, more));
    capture
}

/// Frames, damaged frames, syncs and noise, one behind the other.
fn pieces(random: &mut Random, setting: Setting) -> Vec<u8> {
    let number = match random.below(512) {
        0 => 200 + random.below(200),
        1..=8 => 40 + random.below(40),
        9..=64 => 8 + random.below(16),
        _ => 1 + random.below(7),
    };
    (0..number).flat_map(|_| piece(random, setting)).collect()
}

fn piece(random: &mut Random, setting: Setting) -> Vec<u8> {
    match random.below(16) {
        0..=2 => {
            let most = random.pick(&[8, 40, 40, 600]);
            let count = random.below(most) as usize;
            noise(random, count)
        }
        3 => beginning(random),
        4 => [beginning(random), frame(random, setting)].concat(),
        // The sync overlaps itself by six bits and by one.
        5 => {
            let shift = random.pick(&[18, 18, 23, 24]);
            let front = sync()[..shift].to_vec();
            [front, frame(random, setting)].concat()
        }
        6 => {
            let other = match setting.order {
                Order::LowFirst => Order::HighFirst,
                Order::HighFirst => Order::LowFirst,
            };
            frame(
                random,
                Setting {
                    order: other,
                    ..setting
                },
            )
        }
        7 => damaged(random, setting),
        8 => {
            let mut cut = frame(random, setting);
            cut.truncate(random.below(FRAME as u64) as usize);
            cut
        }
        9..=10 => {
            let mut two = two_that_overlap(random, setting);
            if random.chance(8) {
                turn_one(random, &mut two[..DATA]);
            }
            two
        }
        _ => frame(random, setting),
    }
}

/// The first bits of the sync, sometimes over and over.
fn beginning(random: &mut Random) -> Vec<u8> {
    let length = 1 + random.below(SYNC as u64 - 1) as usize;
    let times = random.pick(&[1, 1, 1, 2, 3]);
    sync()[..length].repeat(times)
}

/// The 585 bits of a frame with the check by this setting.
fn frame(random: &mut Random, setting: Setting) -> Vec<u8> {
    let flags = random.below(32) as u16;
    let mut header = match random.below(8) {
        0..=1 => Header::OF_SET_UP,
        _ => any_header(random, flags),
    };
    header.sequence = random.below(4) as u16;
    let mut data = noise(random, CHECK - DATA);
    if random.chance(4) {
        let at = random.below((data.len() - SYNC + 1) as u64) as usize;
        data[at..at + SYNC].copy_from_slice(&sync());
    }
    let mut frame = Frame::new(header, &data);
    if random.chance(2) {
        // A set-up but for one bit behind the sequence.
        frame.header = Header::OF_SET_UP;
        let mut sent = bits(&frame.sent(setting));
        turn_one(random, &mut sent[BEHIND_SEQUENCE..DATA]);
        frame.header = Header::of(&packed(&sent));
    }
    bits(&frame.sent(setting))[..FRAME].to_vec()
}

/// A frame of which one or two bits are turned, often in the sync or the check.
fn damaged(random: &mut Random, setting: Setting) -> Vec<u8> {
    let mut frame = frame(random, setting);
    for _ in 0..=random.below(2) {
        let (from, to) = random.pick(&[(0, SYNC), (CHECK, FRAME), (0, FRAME)]);
        turn_one(random, &mut frame[from..to]);
    }
    frame
}

/// Two frames, each with its check, of which the later one starts in the data of
/// the earlier one.
fn two_that_overlap(random: &mut Random, setting: Setting) -> Vec<u8> {
    let mut data = noise(random, CHECK - DATA);
    let at = random.below((data.len() - SYNC + 1) as u64) as usize;
    data[at..at + SYNC].copy_from_slice(&sync());
    let header = any_header(random, 0);
    let mut two = bits(&Frame::new(header, &data).sent(setting))[..FRAME].to_vec();
    let start = DATA + at;
    let more = start + CHECK - two.len();
    two.extend(noise(random, more));
    let check = setting.check(&packed(&two[start..])).into();
    let width = FRAME - CHECK;
    match setting.order {
        Order::LowFirst => two.extend(bits_low_first(check, width)),
        Order::HighFirst => two.extend(bits_high_first(check, width)),
    }
    two
}

/// Ends the capture with a frame from whose start so many bits are left.
fn end_with_left(random: &mut Random, setting: Setting, capture: &mut Vec<u8>, left: usize) {
    while !(capture.len() + left).is_multiple_of(8) {
        capture.extend(noise(random, 1));
    }
    capture.extend(&frame(random, setting)[..left]);
}

/// The places of a capture of so many bits that a frame fits behind, some of them
/// the first and the last.
pub fn place(random: &mut Random, length: usize) -> usize {
    let last = length - FRAME;
    let any = random.below(last as u64 + 1) as usize;
    random.pick(&[any, any, any, 0, last])
}

#[cfg(test)]
mod tests {
    use super::*;
    use crate::capture::{is_frame, starts};
    use crate::random::file::setting;

    #[test]
    fn frames_are_found_in_captures() {
        let mut random = Random::new(585);
        let mut found = 0;
        for _ in 0..500 {
            let setting = setting(&mut random);
            let octets = capture(&mut random, setting);
            found += starts(&bits(&octets), setting).len();
        }
        assert!(found > 500, "{found}");
    }

    #[test]
    fn frames_that_overlap_are_both_right() {
        let mut random = Random::new(2);
        for _ in 0..200 {
            let setting = setting(&mut random);
            let two = two_that_overlap(&mut random, setting);
            assert!(is_frame(&two, setting));
            assert!(is_frame(&two[two.len() - FRAME..], setting));
        }
    }

    #[test]
    fn places_have_room_behind_them() {
        let mut random = Random::new(3);
        for length in [585, 586, 592, 2000] {
            let places: Vec<usize> = (0..1000).map(|_| place(&mut random, length)).collect();
            assert_eq!(places.iter().min(), Some(&0));
            assert_eq!(places.iter().max(), Some(&(length - 585)));
        }
    }
}
