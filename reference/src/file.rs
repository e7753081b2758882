//! A page file: records, each a length, a command and, but for the last, a
//! frame, stored turned. [`read`] and [`write`] share what is in this module and
//! the rules of the diagram, and each has its own way through them.

#[cfg(test)]
mod by_hand;
pub mod read;
pub mod write;

use crate::frame::{self, Frame};
use crate::octets::all_turned;
use crate::register::Setting;

/// The length and the command of each kind of record.
pub const SET_UP: [u8; 2] = [76, 56];
pub const DATA: [u8; 2] = [76, 57];
pub const END: [u8; 2] = [2, 58];

/// The octets of a record that has a frame.
pub const RECORD: usize = 2 + frame::OCTETS;

/// A record, its frame in one form or another.
#[derive(Clone, Debug, PartialEq, Eq)]
pub enum Record<F> {
    SetUp(F),
    Data(F),
    End,
}

/// Records whose frames are still to be sent.
pub type Records = Vec<Record<Frame>>;

impl<F> Record<F> {
    pub fn frame(&self) -> Option<&F> {
        match self {
            Record::SetUp(frame) | Record::Data(frame) => Some(frame),
            Record::End => None,
        }
    }

    pub fn frame_mut(&mut self) -> Option<&mut F> {
        match self {
            Record::SetUp(frame) | Record::Data(frame) => Some(frame),
            Record::End => None,
        }
    }
}

/// The records end to end, each with the check by this setting.
pub fn stored(records: &[Record<Frame>], setting: Setting) -> Vec<u8> {
    let mut octets = Vec::new();
    for record in records {
        octets.extend(match record {
            Record::SetUp(_) => SET_UP,
            Record::Data(_) => DATA,
            Record::End => END,
        });
        if let Some(frame) = record.frame() {
            octets.extend(all_turned(&frame.sent(setting)));
        }
    }
    octets
}

/// Turns a bit of the frame that record `index` has, as the ones before it do.
pub fn turn_sent_bit(file: &mut [u8], index: usize, bit: usize) {
    file[RECORD * index + 2 + bit / 8] ^= 1 << (bit % 8);
}

/// Whether a number (speed 8, detail 4, 14 inch 2, 5.5 inch 1) is one of the
/// nine settings.
pub fn are_settings(number: u64) -> bool {
    let both = |bits| number & bits == bits;
    number < 16 && !both(8 | 4) && !both(2 | 1)
}

#[cfg(test)]
mod tests {
    use super::*;
    use crate::appendix;
    use crate::octets::bit;

    #[test]
    fn a_bit_turned_in_a_file_is_turned_as_sent() {
        for i in 0..8 * frame::OCTETS {
            let mut file = appendix::stored().concat();
            turn_sent_bit(&mut file, 3, i);
            for (index, sent) in appendix::sent().iter().enumerate() {
                let record = &file[RECORD * index..][..RECORD];
                let again = all_turned(&record[2..]);
                let own = |j| bit(&sent[2..], j) != bit(&again, j);
                let differ: Vec<usize> = (0..8 * frame::OCTETS).filter(|j| own(*j)).collect();
                assert_eq!(differ, if index == 3 { vec![i] } else { vec![] });
            }
        }
    }

    #[test]
    fn there_are_nine_settings() {
        let settings: Vec<u64> = (0..100).filter(|number| are_settings(*number)).collect();
        assert_eq!(settings, [0, 1, 2, 4, 5, 6, 8, 9, 10]);
        assert!(!are_settings(1 << 32));
        assert!(!are_settings(u64::MAX));
    }
}
