//! One data part, read in two ways that share only the judging of what is
//! handed in and of the room: [`readings`] looks for every reading that the
//! scope paper's rules allow, [`lookahead`] decodes as RFC 798 section V does.

pub mod lookahead;
pub mod readings;
pub mod steps;

use crate::octets::bit;
use crate::page::PELS;
use crate::refusal::Refusal;

/// The bits of a frame's data.
pub const BITS: u64 = 512;

/// The end of a part whose last column is left open.
pub const OPEN: u8 = 4;

/// The index of a row pair's last column: X at the right edge.
pub const EDGE: usize = PELS - 1;

/// A column's two pels, the upper first and black 1.
#[derive(Clone, Copy, Debug, PartialEq, Eq)]
#[repr(u8)]
pub enum State {
    WW = 0b00,
    WB = 0b01,
    BW = 0b10,
    BB = 0b11,
}

impl Start {
    /// Where a page starts: after a column that is not on it.
    pub const OF_PAGE: Start = Start {
        state: State::WW,
        black: 7,
        white: 7,
        x: EDGE,
    };
}

impl State {
    pub const ALL: [State; 4] = [State::WW, State::WB, State::BW, State::BB];

    pub fn pels(self) -> u8 {
        self as u8
    }

    pub fn is_solid(self) -> bool {
        matches!(self, State::WW | State::BB)
    }
}

/// Where a part starts: its state, both field lengths, 2 to 7, and X, the index
/// of the last column laid before it, 0 to 1725.
#[derive(Clone, Copy, Debug, PartialEq, Eq)]
pub struct Start {
    pub state: State,
    pub black: usize,
    pub white: usize,
    pub x: usize,
}

/// The same as numbers that are handed in and still to be judged.
#[derive(Clone, Copy, Debug, PartialEq, Eq)]
pub struct StartHandedIn {
    pub state: u64,
    pub black: u64,
    pub white: u64,
    pub x: u64,
}

impl StartHandedIn {
    pub fn of(start: Start) -> StartHandedIn {
        StartHandedIn {
            state: start.state.pels().into(),
            black: start.black as u64,
            white: start.white as u64,
            x: start.x as u64,
        }
    }

    /// The start, unless it is refused by 9 or 10.
    fn judged(self) -> Result<Start, Refusal> {
        let StartHandedIn {
            state,
            black,
            white,
            x,
        } = self;
        if !(2..=7).contains(&black) || !(2..=7).contains(&white) {
            return Err(Refusal::of_no_record(9));
        }
        if state > 3 || x > EDGE as u64 {
            return Err(Refusal::of_no_record(10));
        }
        Ok(Start {
            state: State::ALL[state as usize],
            black: black as usize,
            white: white as usize,
            x: x as usize,
        })
    }
}

#[derive(Clone, Debug, PartialEq, Eq)]
pub struct Part {
    /// The columns by their pels, without one that is left open.
    pub columns: Vec<u8>,
    /// The pels of the end state, or [`OPEN`].
    pub end: u8,
    /// Whether the last step is a closing word.
    pub closed: bool,
    pub black: usize,
    pub white: usize,
    /// Where a field length fell only because a run ended at the right edge: the
    /// number of columns laid by then.
    pub falls_at_edge: Vec<usize>,
}

/// Reads the first `count` bits of `octets` by the search for all readings.
pub fn read_part(
    octets: &[u8],
    count: u64,
    start: StartHandedIn,
    room: usize,
) -> Result<Part, Refusal> {
    let (start, bits) = handed_in(octets, count, start)?;
    let part = readings::read(start, &bits)
        .ok_or_else(|| Refusal::no_reading(readings::longest_beginning(start, &bits)))?;
    fitting(part, room)
}

/// The same answer, by the decoder that looks ahead.
pub fn read_part_fast(
    octets: &[u8],
    count: u64,
    start: StartHandedIn,
    room: usize,
) -> Result<Part, Refusal> {
    let (start, bits) = handed_in(octets, count, start)?;
    fitting(read_or_refuse(start, &bits)?, room)
}

/// The part by the decoder that looks ahead, unless it is refused by 11.
pub fn read_or_refuse(start: Start, bits: &[u8]) -> Result<Part, Refusal> {
    let refusal = || Refusal::no_reading(longest_beginning(lookahead::read, start, bits));
    lookahead::read(start, bits).ok_or_else(refusal)
}

/// The length of the longest beginning of the bits that is read, by trying each, the
/// longest first. All are tried, since a longer one may be read where a shorter is
/// not: from BW 010 has a reading and 01 has none.
fn longest_beginning(read: fn(Start, &[u8]) -> Option<Part>, start: Start, bits: &[u8]) -> usize {
    let mut lengths = (0..=bits.len()).rev();
    lengths
        .find(|k| read(start, &bits[..*k]).is_some())
        .expect("the empty string has a reading")
}

/// The start and the bits, 0 or 1, unless they are refused by 8, 9 or 10.
pub fn handed_in(
    octets: &[u8],
    count: u64,
    start: StartHandedIn,
) -> Result<(Start, Vec<u8>), Refusal> {
    if count > BITS || count > 8 * octets.len() as u64 {
        return Err(Refusal::of_no_record(8));
    }
    let start = start.judged()?;
    let bits = (0..count as usize).map(|i| u8::from(bit(octets, i)));
    Ok((start, bits.collect()))
}

/// The part, unless its columns have no room.
fn fitting(part: Part, room: usize) -> Result<Part, Refusal> {
    if part.columns.len() > room {
        return Err(Refusal::of_no_record(16));
    }
    Ok(part)
}

#[cfg(test)]
mod tests {
    use super::steps::Place;
    use super::State::{BB, BW, WB, WW};
    use super::*;
    use crate::octets::packed;
    use crate::random::{self, Random};
    use crate::{appendix, frame};
    use std::collections::HashSet;

    /// The answer of both decoders, which must be one.
    fn read(octets: &[u8], count: u64, start: StartHandedIn, room: usize) -> Result<Part, u64> {
        let part = read_part(octets, count, start, room);
        let fast = read_part_fast(octets, count, start, room);
        assert_eq!(part, fast);
        part.map_err(Refusal::returned)
    }

    fn start_at(state: u64, black: u64, white: u64, x: u64) -> StartHandedIn {
        StartHandedIn {
            state,
            black,
            white,
            x,
        }
    }

    /// Reads the bits of `text`, in which spaces only help the reader, from X.
    fn read_from(x: u64, text: &str, state: State, black: u64, white: u64) -> Result<Part, u64> {
        let bits: Vec<u8> = text.bytes().filter(|b| *b != b' ').collect();
        let bits: Vec<u8> = bits.iter().map(|b| b - b'0').collect();
        let count = bits.len() as u64;
        let start = start_at(state.pels().into(), black, white, x);
        read(&packed(&bits), count, start, 9271)
    }

    /// The same from X 1725.
    fn read_text(text: &str, state: State, black: u64, white: u64) -> Result<Part, u64> {
        read_from(1725, text, state, black, white)
    }

    fn part(columns: &[State], end: u8, black: usize, white: usize) -> Result<Part, u64> {
        let columns = columns.iter().map(|state| state.pels()).collect();
        Ok(Part {
            columns,
            end,
            closed: false,
            black,
            white,
            falls_at_edge: Vec::new(),
        })
    }

    /// The part in which a length fell after so many columns, because a run ended
    /// at the right edge.
    fn fell_after(columns: usize, part: Result<Part, u64>) -> Result<Part, u64> {
        part.map(|part| Part {
            falls_at_edge: vec![columns],
            ..part
        })
    }

    /// The refusal of a string whose longest beginning that has a reading has so
    /// many bits.
    fn stops_at(bit: u64) -> Result<Part, u64> {
        Err(11 + 256 * bit)
    }

    fn closed(part: Result<Part, u64>) -> Result<Part, u64> {
        part.map(|part| Part {
            closed: true,
            ..part
        })
    }

    #[test]
    fn case_a() {
        assert_eq!(
            read_text("1 1011 11 000 1 0100 001 1 0 010 1000", WB, 2, 3),
            part(
                &[WB, BB, BB, BB, BB, BW, WW, WW, WW, WW, WW, BW, BW, WB, WW],
                0b00,
                3,
                3
            )
        );
    }

    #[test]
    fn case_b() {
        assert_eq!(
            read_text("1 1011 1000 1 1 101 0111 110 1 1000", WB, 4, 3),
            part(
                &[WB, BB, BB, WB, WB, BW, BB, BB, BB, BB, WB, WW],
                0b00,
                2,
                3
            )
        );
    }

    #[test]
    fn case_c() {
        assert_eq!(
            read_text("111 0000", WW, 2, 3),
            closed(part(&[WW; 7], 0b00, 2, 4)),
            "a second word's zero does not lower the length"
        );
    }

    #[test]
    fn case_d() {
        assert_eq!(read_text("0110", BW, 2, 2), stops_at(1));
    }

    #[test]
    fn case_e() {
        assert_eq!(read_text("010", BW, 2, 2), part(&[WB], 0b01, 2, 2));
    }

    #[test]
    fn case_f() {
        assert_eq!(read_text("00 1", WW, 2, 2), part(&[], OPEN, 2, 2));
        assert_eq!(read_text("00 1", BB, 2, 2), part(&[], OPEN, 2, 2));
    }

    #[test]
    fn case_g() {
        assert_eq!(read_text("1111111", WW, 2, 7), part(&[WW; 127], 0b00, 2, 7));
        assert_eq!(
            read_text("1111111 1111111 0100000 0", WW, 7, 7),
            part(&[&[WW; 256][..], &[BB]].concat(), 0b11, 7, 7)
        );
    }

    #[test]
    fn the_empty_string_ends_where_it_starts() {
        for state in State::ALL {
            assert_eq!(read_text("", state, 3, 5), part(&[], state.pels(), 3, 5));
        }
    }

    #[test]
    fn only_a_closing_word_at_the_end_closes() {
        assert_eq!(read_text("00", WW, 2, 2), closed(part(&[], 0b00, 2, 2)));
        assert_eq!(read_text("11", WW, 2, 2), part(&[WW; 3], 0b00, 2, 3));
        assert_eq!(read_text("00 0", WW, 2, 2), part(&[BB], 0b11, 2, 2));
        assert_eq!(
            read_text("00 0 10", WW, 2, 2),
            closed(part(&[BB; 2], 0b11, 2, 2))
        );
        assert_eq!(read_text("0100", BW, 2, 2), part(&[WW], 0b00, 2, 2));
        assert_eq!(read_text("0", BW, 2, 2), part(&[BW], 0b10, 2, 2));
    }

    #[test]
    fn a_word_or_move_that_is_cut_has_no_reading() {
        for (text, bit) in [("111 000", 3), ("1", 0), ("111 0000 0 1", 8)] {
            assert_eq!(read_text(text, WW, 2, 3), stops_at(bit));
        }
        for (text, bit) in [("01", 1), ("011", 1), ("1", 0)] {
            assert_eq!(read_text(text, BW, 2, 3), stops_at(bit));
        }
        for (text, bit) in [("10", 1), ("100", 1), ("0", 0)] {
            assert_eq!(read_text(text, WB, 2, 3), stops_at(bit));
        }
    }

    #[test]
    fn the_longest_beginning_may_be_read_otherwise() {
        for (black, white) in [(2, 2), (3, 7), (7, 3)] {
            // 0 is a move by itself; with 11 behind it only 0111 could begin so.
            assert_eq!(read_text("0110", BW, black, white), stops_at(1));
            // 010 and 1; a longer move that begins with 10 is cut.
            assert_eq!(read_text("010 10", BW, black, white), stops_at(4));
            // 010, 1, 1 and 1; no move begins with 1001.
            assert_eq!(read_text("010 1 1 1001", BW, black, white), stops_at(6));
            // The same out of WB.
            assert_eq!(read_text("1001", WB, black, white), stops_at(1));
            assert_eq!(read_text("101 01", WB, black, white), stops_at(4));
        }
        // Out of a closing word, where the 1 is open until the next bit.
        assert_eq!(read_text("00 1 0110", WW, 2, 2), stops_at(4));
        assert_eq!(read_text("00 1 1001", BB, 2, 2), stops_at(4));
    }

    #[test]
    fn a_longer_beginning_may_have_a_reading_where_a_shorter_has_none() {
        let has_reading = |text| read_text(text, BW, 2, 2).is_ok();
        let beginnings = ["", "0", "01", "010", "0100", "0100 1"];
        assert_eq!(
            beginnings.map(has_reading),
            [true, true, false, true, true, false]
        );
        assert_eq!(read_text("0100 1", BW, 2, 2), stops_at(4));
        assert_eq!(read_text("0100 11 11", BW, 2, 2), stops_at(6));
    }

    #[test]
    fn words_of_ones_count_with_the_beginning() {
        assert_eq!(read_text("11 111 1111 1111", WW, 7, 2), stops_at(9));
        assert_eq!(read_text("11 111 0000 0 1111 111", WW, 4, 2), stops_at(14));
    }

    #[test]
    fn the_right_edge_decides_where_a_reading_stops() {
        // 111 1100 0 00 0 and a word, of 3 bits if the length fell at the edge.
        let text = "111 1100 0 00 0 01 1";
        assert_eq!(
            read_from(1715, text, WW, 2, 3),
            fell_after(
                10,
                closed(part(&[&[WW; 10][..], &[BB], &[WW; 7]].concat(), 0, 2, 3))
            )
        );
        assert_eq!(read_from(1714, text, WW, 2, 3), stops_at(11));
    }

    /// The field length after a run of one word of value `v`.
    fn length_after(n: usize, v: usize) -> usize {
        let word: String = (0..n)
            .map(|i| char::from(b'0' + (v >> i & 1) as u8))
            .collect();
        let part = read_text(&word, BB, n as u64, 7).expect("a word has a reading");
        assert_eq!((part.columns.len(), part.white), (v, 7));
        part.black
    }

    #[test]
    fn field_lengths_on_either_side() {
        assert!((0..3).all(|v| length_after(2, v) == 2));
        assert_eq!([0, 3, 4, 6].map(|v| length_after(3, v)), [2, 2, 3, 3]);
        assert_eq!([0, 3, 4, 14].map(|v| length_after(4, v)), [3, 3, 4, 4]);
        assert_eq!([0, 7, 8, 30].map(|v| length_after(5, v)), [4, 4, 5, 5]);
        assert_eq!([0, 15, 16, 62].map(|v| length_after(6, v)), [5, 5, 6, 6]);
        assert_eq!([0, 31, 32, 126].map(|v| length_after(7, v)), [6, 6, 7, 7]);
        assert_eq!(
            [2, 3, 4, 5, 6, 7].map(|n| length_after(n, (1 << n) - 1)),
            [3, 4, 5, 6, 7, 7]
        );
    }

    #[test]
    fn image_frames_of_the_appendix() {
        let mut x = 1725;
        let mut parts = Vec::new();
        for record in &appendix::sent()[2..] {
            let sent = appendix::frame(record);
            let header = frame::Header::of(&sent);
            let [count, state, black, white] =
                [header.count, header.state, header.black, header.white].map(u64::from);
            // The first is read from the page's start, whatever X it says.
            if !parts.is_empty() {
                assert_eq!(u64::from(header.x), x);
            }
            let start = start_at(state, black, white, x);
            let part =
                read(&frame::data(&sent), count, start, 9271).expect("the frame has a reading");
            let columns = part.columns.len();
            x = (x + columns as u64) % 1726;
            parts.push((columns, part.end, part.black, part.white));
        }
        assert_eq!(
            parts,
            [(437, 0b10, 2, 6), (334, 0b10, 2, 6), (388, 0b11, 2, 6)]
        );
    }

    /// The picture that RFC 798 prints of its frames is not from us. It differs from the
    /// columns in two pels. Both are in the last column of a frame that more frames
    /// follow, which the next header says is BW: so its upper pel is black, as read here.
    #[test]
    fn the_appendix_lays_the_picture_that_is_printed() {
        let mut columns = Vec::new();
        for record in &appendix::sent()[2..] {
            let sent = appendix::frame(record);
            let header = frame::Header::of(&sent);
            let start = start_at(
                header.state.into(),
                header.black.into(),
                header.white.into(),
                (columns.len() as u64 + 1725) % 1726,
            );
            let part = read(&frame::data(&sent), header.count.into(), start, 9271);
            columns.extend(part.expect("the frame has a reading").columns);
        }
        assert_eq!(columns.len(), 1159);
        let rows = appendix::first_rows();
        let mut differing = Vec::new();
        for (i, column) in columns.iter().enumerate() {
            let pels = [column >> 1 & 1 == 1, column & 1 == 1];
            for (row, pel) in pels.into_iter().enumerate() {
                if bit(&rows[row], i) != pel {
                    differing.push((row, i, pel));
                }
            }
        }
        assert_eq!(differing, [(0, 436, true), (0, 770, true)]);

        // One column to the left, where the second and the third frame would stand if X were
        // the next column to lay.
        let to_the_left = |from: usize, to: usize| {
            let is_there = |i: usize| u8::from(bit(&rows[0], i)) << 1 | u8::from(bit(&rows[1], i));
            (from..to)
                .filter(|&i| columns[i] != is_there(i - 1))
                .count()
        };
        assert_eq!(to_the_left(437, 771), 83);
        assert_eq!(to_the_left(771, 1159), 96);
    }

    #[test]
    fn the_first_image_frame_starts_a_page() {
        let sent = appendix::frame(&appendix::sent()[2]);
        let count = u64::from(frame::Header::of(&sent).count);
        let start = StartHandedIn::of(Start::OF_PAGE);
        assert_eq!(start, start_at(0b00, 7, 7, 1725));
        let part = read(&frame::data(&sent), count, start, 437).expect("a reading");
        assert_eq!(part.columns.len(), 437);
        assert_eq!((part.end, part.black, part.white), (0b10, 2, 6));
    }

    #[test]
    fn most_columns_of_a_frame() {
        for x in [0, 74, 1724, 1725] {
            let ones = |count, room| read(&[0xFF; 64], count, start_at(0b00, 7, 7, x), room);
            let part = ones(511, 9271).expect("73 words of ones");
            assert_eq!(part.columns.len(), 9271);
            assert_eq!(ones(511, 9270), Err(16));
            assert_eq!(ones(512, 9271), stops_at(511));
        }
    }

    #[test]
    fn refusals_in_order() {
        let zeros = [0; 65];
        let read = |octets: &[u8], count, [state, black, white, x]: [u64; 4], room| {
            read(octets, count, start_at(state, black, white, x), room)
        };
        assert_eq!(read(&zeros, 513, [9, 1, 1, 1726], 0), Err(8));
        assert_eq!(read(&zeros[..2], 17, [9, 1, 1, 1726], 0), Err(8));
        assert_eq!(read(&zeros, u64::MAX, [2, 2, 2, 0], 600), Err(8));
        assert_eq!(read(&zeros, 512, [9, 1, 2, 1726], 0), Err(9));
        assert_eq!(read(&zeros, 512, [9, 2, 1, 1726], 0), Err(9));
        assert_eq!(read(&zeros, 512, [9, 2, 8, 1726], 0), Err(9));
        assert_eq!(read(&zeros, 512, [9, 8, 2, 1726], 0), Err(9));
        assert_eq!(read(&zeros, 512, [1, 1, 2, 1726], 0), Err(9));
        assert_eq!(read(&zeros, 512, [4, 2, 2, 1726], 0), Err(10));
        assert_eq!(read(&zeros, 512, [4, 2, 2, 1725], 0), Err(10));
        assert_eq!(read(&zeros, 512, [1, 2, 2, 1726], 0), Err(10));
        assert_eq!(read(&zeros, 512, [1, 2, 2, 1725], 0), stops_at(0));
        assert_eq!(read(&zeros, 512, [2, 2, 2, 1725], 511), Err(16));
        assert_eq!(
            read(&zeros, 512, [2, 2, 2, 1725], 512).map(|p| p.columns.len()),
            Ok(512)
        );
    }

    #[test]
    fn by_10_for_an_x_above_1725() {
        for x in [0, 1, 1724, 1725] {
            assert_eq!(read_from(x, "010", BW, 2, 2), part(&[WB], 0b01, 2, 2));
        }
        for x in [1726, 1727, 4095, 4096, (1 << 32) + 5, u64::MAX] {
            assert_eq!(read_from(x, "010", BW, 2, 2), Err(10));
            assert_eq!(read_from(x, "0110", BW, 2, 2), Err(10));
            assert_eq!(read_from(x, "010", BW, 2, 8), Err(9));
        }
    }

    // RFC 798 section III: where a run of at least two words ends exactly at the
    // end of a scan line, its last word is tested for decrement as if the words
    // before it did not exist. So X is chosen such that the run's last column is
    // 1725, and then 1724 and 0.

    #[test]
    fn the_last_of_two_words_is_tested_at_the_right_edge() {
        // 111 lays 7 columns and makes the length 4; 1100 lays 3, below 4.
        let read = |x| read_from(x, "111 1100", WW, 2, 3);
        assert_eq!(
            read(1715),
            fell_after(10, closed(part(&[WW; 10], 0b00, 2, 3)))
        );
        assert_eq!(read(1714), closed(part(&[WW; 10], 0b00, 2, 4)));
        assert_eq!(read(1716), closed(part(&[WW; 10], 0b00, 2, 4)));
        // 0010 lays 4, not below 4.
        for x in [1713, 1714, 1715] {
            assert_eq!(
                read_from(x, "111 0010", WW, 2, 3),
                closed(part(&[WW; 11], 0b00, 2, 4))
            );
        }
    }

    #[test]
    fn a_last_word_of_0_is_tested_at_the_right_edge() {
        // The 7 columns of 111 end at 1725, and 0000 lays none.
        let read = |x| read_from(x, "111 0000", WW, 2, 3);
        assert_eq!(
            read(1718),
            fell_after(7, closed(part(&[WW; 7], 0b00, 2, 3)))
        );
        for x in [1717, 1719, 1725] {
            assert_eq!(read(x), closed(part(&[WW; 7], 0b00, 2, 4)));
        }
    }

    #[test]
    fn the_last_of_three_words_is_tested_at_the_right_edge() {
        // 7, 15 and 3 columns, the lengths 3, 4 and 5; 3 is below 8.
        let read = |x| read_from(x, "111 1111 11000", BB, 3, 2);
        assert_eq!(
            read(1700),
            fell_after(25, closed(part(&[BB; 25], 0b11, 4, 2)))
        );
        assert_eq!(read(1699), closed(part(&[BB; 25], 0b11, 5, 2)));
        assert_eq!(read(1701), closed(part(&[BB; 25], 0b11, 5, 2)));
    }

    #[test]
    fn the_next_word_has_the_length_after_the_right_edge() {
        let text = "111 1100 0 00 0 1010";
        // 111 1100 0 00 0 101 0: the white length fell to 3, at which 5 stays.
        let pair = [&[WW; 10][..], &[BB], &[WW; 6], &[BB]].concat();
        assert_eq!(
            read_from(1715, text, WW, 2, 3),
            fell_after(10, part(&pair, 0b11, 2, 3))
        );
        // 111 1100 0 00 0 1010: it stayed 4.
        let pair = [&[WW; 10][..], &[BB], &[WW; 6]].concat();
        for x in [1714, 1716] {
            assert_eq!(
                read_from(x, text, WW, 2, 3),
                closed(part(&pair, 0b00, 2, 4))
            );
        }
    }

    #[test]
    fn a_column_may_stay_open_behind_the_right_edge() {
        assert_eq!(
            read_from(1715, "111 1100 1", WW, 2, 3),
            fell_after(10, part(&[WW; 10], OPEN, 2, 3))
        );
        assert_eq!(
            read_from(1714, "111 1100 1", WW, 2, 3),
            part(&[WW; 10], OPEN, 2, 4)
        );
    }

    #[test]
    fn columns_that_moves_lay_are_counted_from_x() {
        // Three columns in BW, one by the move to WW, then 7 and 3.
        let columns = [&[BW; 3][..], &[WW; 11]].concat();
        let read = |x| read_from(x, "0 0 0 0100 111 1100", BW, 2, 3);
        assert_eq!(
            read(1711),
            fell_after(14, closed(part(&columns, 0b00, 2, 3)))
        );
        assert_eq!(read(1710), closed(part(&columns, 0b00, 2, 4)));
        assert_eq!(read(1712), closed(part(&columns, 0b00, 2, 4)));
    }

    #[test]
    fn a_run_over_the_right_edge_is_as_any_other() {
        for x in [1717, 1718, 1719, 1724, 1725] {
            assert_eq!(
                read_from(x, "111 1100", WW, 2, 3),
                closed(part(&[WW; 10], 0b00, 2, 4))
            );
        }
    }

    #[test]
    fn a_word_of_ones_is_not_tested_at_the_right_edge() {
        assert_eq!(read_from(1718, "111", WW, 2, 3), part(&[WW; 7], 0b00, 2, 4));
        assert_eq!(
            read_from(1598, "1111111", BB, 7, 2),
            part(&[BB; 127], 0b11, 7, 2)
        );
    }

    #[test]
    fn an_only_word_is_tested_once_and_anywhere() {
        // 11000 lays 3 columns, below 8.
        for x in [0, 1721, 1722, 1723, 1725] {
            assert_eq!(
                read_from(x, "11000", WW, 2, 5),
                closed(part(&[WW; 3], 0b00, 2, 4))
            );
        }
        for x in [0, 1724, 1725] {
            assert_eq!(
                read_from(x, "00000", WW, 2, 5),
                closed(part(&[], 0b00, 2, 4))
            );
        }
    }

    #[test]
    fn the_right_edge_is_met_again_after_a_row_pair() {
        // 13 words of 127 columns are 1651, and 1725 is 74 + 1651.
        let text = "1111111".repeat(13) + "0000000";
        let read = |x| read_from(x, &text, BB, 7, 7);
        assert_eq!(
            read(74),
            fell_after(1651, closed(part(&[BB; 1651], 0b11, 6, 7)))
        );
        assert_eq!(read(73), closed(part(&[BB; 1651], 0b11, 7, 7)));
        assert_eq!(read(75), closed(part(&[BB; 1651], 0b11, 7, 7)));
        // 27 of them and 23 columns are two row pairs; 23 is below 32.
        let text = "1111111".repeat(27) + "1110100";
        let read = |x| read_from(x, &text, WW, 7, 7);
        assert_eq!(
            read(1725),
            fell_after(3452, closed(part(&[WW; 3452], 0b00, 7, 6)))
        );
        assert_eq!(read(1724), closed(part(&[WW; 3452], 0b00, 7, 7)));
        assert_eq!(read(0), closed(part(&[WW; 3452], 0b00, 7, 7)));
    }

    #[test]
    fn field_lengths_on_either_side_at_the_right_edge() {
        // A first word of ones, a last word on either side of where the length
        // falls, X from which they end at 1725, and the length there.
        for (text, first, x, length) in [
            ("11 110", 2, 1719, 2),
            ("11 001", 2, 1718, 3),
            ("111 1100", 3, 1715, 3),
            ("111 0010", 3, 1714, 4),
            ("1111 11100", 4, 1703, 4),
            ("1111 00010", 4, 1702, 5),
            ("11111 111100", 5, 1679, 5),
            ("11111 000010", 5, 1678, 6),
            ("111111 1111100", 6, 1631, 6),
            ("111111 0000010", 6, 1630, 7),
            ("1111111 1111100", 7, 1567, 6),
            ("1111111 0000010", 7, 1566, 7),
        ] {
            let lengths = |x| {
                let black = read_from(x, text, BB, first, 7).expect("a reading");
                let white = read_from(x, text, WW, 7, first).expect("a reading");
                assert_eq!((black.white, white.black), (7, 7));
                [black.black, white.white]
            };
            assert_eq!(lengths(x), [length; 2], "{text}");
            let other = (first as usize + 1).min(7);
            assert_eq!(lengths(x - 1), [other; 2], "{text}");
            assert_eq!(lengths(x + 1), [other; 2], "{text}");
        }
    }

    /// Starts in each state, some of them near the right edge.
    fn some_starts() -> impl Iterator<Item = Start> {
        let others = [(2, 3, 0), (3, 2, 1715), (4, 4, 1703), (2, 2, 1719)];
        State::ALL.into_iter().flat_map(move |state| {
            others.map(|(black, white, x)| Start {
                state,
                black,
                white,
                x,
            })
        })
    }

    /// All strings of at most so many bits.
    fn short_strings(most: usize) -> impl Iterator<Item = Vec<u8>> {
        (0..=most).flat_map(|count| {
            (0..1 << count).map(move |value| (0..count).map(|i| (value >> i & 1) as u8).collect())
        })
    }

    #[test]
    fn both_decoders_agree_on_every_short_string() {
        for bits in short_strings(11) {
            for start in some_starts() {
                assert_eq!(readings::read(start, &bits), lookahead::read(start, &bits));
            }
        }
    }

    /// The bits of every list of steps that is allowed from a place and has at most
    /// so many bits: the strings that have a reading, made and not read.
    fn strings_with_a_reading(place: Place, most: usize) -> HashSet<Vec<u8>> {
        let mut strings = HashSet::from([Vec::new()]);
        for step in place.allowed() {
            let code = place.code(step);
            if code.length <= most {
                let after = strings_with_a_reading(place.after(step), most - code.length);
                strings.extend(
                    after
                        .iter()
                        .map(|rest| code.bits().chain(rest.iter().copied()).collect()),
                );
            }
        }
        strings
    }

    #[test]
    fn the_longest_beginning_of_every_short_string() {
        const MOST: usize = 12;
        let mut longest = [0; MOST + 1];
        for start in some_starts() {
            let with_a_reading = strings_with_a_reading(Place::of(start), MOST);
            for bits in short_strings(MOST) {
                let beginnings = (0..=bits.len()).filter(|k| with_a_reading.contains(&bits[..*k]));
                let length = beginnings.max().expect("the empty string has a reading");
                assert_eq!(readings::longest_beginning(start, &bits), length);
                assert_eq!(longest_beginning(readings::read, start, &bits), length);
                assert_eq!(longest_beginning(lookahead::read, start, &bits), length);
                longest[length] += 1;
                // Of a string that is refused it is the decoder's own place, or the
                // next bit is a move by itself.
                match lookahead::decode(start, &bits) {
                    Ok(_) => assert_eq!(length, bits.len()),
                    Err(consumed) => assert!([consumed, consumed + 1].contains(&length)),
                }
            }
        }
        assert!(longest.iter().all(|times| *times > 1000), "{longest:?}");
    }

    #[test]
    fn both_decoders_agree_on_random_strings() {
        let mut random = Random::new(798);
        let (mut fell_at_edge, mut refused) = (0, 0);
        for i in 0..4000 {
            let start = random::start(&mut random);
            let limit = random.below(513) as usize;
            let walk = random::walk_about_edge(&mut random, start, limit);
            let start = walk.start;
            let mut bits = match i % 4 {
                0 => random::noise(&mut random, limit),
                _ => walk.bits(),
            };
            if i % 4 == 1 {
                random::turn_one(&mut random, &mut bits);
            }
            let part = readings::read(start, &bits);
            assert_eq!(part, lookahead::read(start, &bits));
            let length = readings::longest_beginning(start, &bits);
            assert_eq!(length, longest_beginning(lookahead::read, start, &bits));
            refused += usize::from(part.is_none());
            fell_at_edge += usize::from(part.is_some_and(|part| !part.falls_at_edge.is_empty()));
        }
        assert!(fell_at_edge > 200, "{fell_at_edge}");
        assert!(refused > 1000, "{refused}");
    }
}
