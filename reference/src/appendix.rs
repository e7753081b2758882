//! The five records in the appendix of RFC 798, in both of the forms it prints, and the
//! beginning of the picture that it prints of them.

use crate::frame;
use crate::page::bitmap::LINE;

/// Length, command, and the octets of the frame.
pub type Record = [u8; 2 + frame::OCTETS];

const TEXT: &str = include_str!("../../crates/vectors/data/appendix.txt");

const BITMAP: &str = include_str!("../../crates/vectors/data/picture.txt");

/// The records as they come out of the machine.
pub fn sent() -> [Record; 5] {
    five(0)
}

/// The same records as they stand in a file.
pub fn stored() -> [Record; 5] {
    five(5)
}

/// The frame of a record, without its length and command.
pub fn frame(record: &Record) -> [u8; frame::OCTETS] {
    std::array::from_fn(|i| record[2 + i])
}

/// The first two rows of the expanded bitmap, the leftmost pel the high bit, black 1.
pub fn first_rows() -> [[u8; LINE]; 2] {
    let rows: Vec<[u8; LINE]> = lines(BITMAP).map(octets).collect();
    rows.try_into().expect("two rows")
}

/// Five records of the text, from number `first`.
fn five(first: usize) -> [Record; 5] {
    let records: Vec<Record> = lines(TEXT).skip(first).take(5).map(octets).collect();
    records.try_into().expect("five records of each form")
}

/// The lines of a text that are no comments.
fn lines(text: &'static str) -> impl Iterator<Item = &'static str> {
    text.lines().filter(|line| !line.starts_with('#'))
}

/// The octets of a line, which must be so many.
fn octets<const N: usize>(line: &str) -> [u8; N] {
    let octets: Vec<u8> = line
        .split_whitespace()
        .map(|octal| u8::from_str_radix(octal, 8).expect("an octal octet"))
        .collect();
    octets.try_into().expect("as many octets as a line has")
}

#[cfg(test)]
mod tests {
    use super::*;
    use crate::{frame::Header, octets};

    fn headers() -> [Header; 5] {
        sent().map(|record| Header::of(&frame(&record)))
    }

    #[test]
    fn the_text_holds_ten_records() {
        assert_eq!(lines(TEXT).count(), 10);
    }

    #[test]
    fn rows_have_no_trailing_bits() {
        assert!(first_rows().iter().all(|row| row[LINE - 1] & 0b11 == 0));
    }

    #[test]
    fn stored_is_sent_turned() {
        for (sent, stored) in sent().iter().zip(&stored()) {
            assert_eq!(sent[..2], stored[..2]);
            assert_eq!(frame(sent).map(octets::turned), frame(stored));
        }
    }

    #[test]
    fn lengths_commands_and_sync() {
        for (i, record) in sent().iter().enumerate() {
            assert_eq!(record[..2], [76, if i == 0 { 56 } else { 57 }]);
            assert_eq!(record[2..5], [0x62, 0x79, 0xD8]);
        }
    }

    #[test]
    fn sequences() {
        assert_eq!(headers().map(|h| h.sequence), [0, 0, 1, 2, 3]);
    }

    #[test]
    fn flags() {
        let data = 0b10000;
        assert_eq!(
            headers().map(|h| h.flags),
            [0b00101, data, data, data, data]
        );
    }

    #[test]
    fn counts() {
        assert_eq!(headers().map(|h| h.count), [1023, 0, 501, 501, 504]);
    }

    #[test]
    fn positions() {
        assert_eq!(headers().map(|h| h.x), [4095, 1441, 4095, 436, 770]);
    }

    #[test]
    fn sizes() {
        assert_eq!(
            headers().map(|h| (h.black, h.white)),
            [(7, 7), (3, 5), (7, 7), (2, 6), (2, 6)]
        );
    }

    #[test]
    fn states() {
        assert_eq!(headers().map(|h| h.state), [0b11, 0b11, 0b00, 0b10, 0b10]);
    }
}
