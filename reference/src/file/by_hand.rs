//! Files made by hand, for tests.

use super::{stored, Record, Records, DATA, END, SET_UP};
use crate::frame::{Frame, Header, CHECK};
use crate::octets::{all_turned, packed};
use crate::part::State;
use crate::register::{run, HandedIn, Order, Setting};

pub const SETTING: Setting = Setting {
    generator: 425,
    start: 3060,
    first_bit: 24,
    order: Order::LowFirst,
};

pub const COMPARED: HandedIn = HandedIn {
    generator: 425,
    start: 3060,
    first_bit: 24,
    compare: 1,
    order: 0,
};

pub const NOT_COMPARED: HandedIn = HandedIn {
    compare: 0,
    ..COMPARED
};

/// The bits of a text in which spaces only help the reader.
pub fn bits(text: &str) -> Vec<u8> {
    let digits = text.bytes().filter(|b| *b != b' ');
    digits.map(|b| b - b'0').collect()
}

/// A set-up record with these four settings.
pub fn set_up(settings: &str) -> Record<Frame> {
    let ones_and_zeros = "10".repeat(240);
    let text = format!("0 {settings} 1 00000 0 {:020} {ones_and_zeros}", 0);
    Record::SetUp(Frame::new(Header::OF_SET_UP, &bits(&text)))
}

/// A data record whose data begins with the bits of a text.
pub fn data(
    sequence: u16,
    x: u16,
    (black, white): (u16, u16),
    state: State,
    text: &str,
) -> Record<Frame> {
    let bits = bits(text);
    let header = Header {
        sequence,
        flags: 0b10000,
        count: bits.len() as u16,
        x,
        black,
        white,
        state: state.pels().into(),
    };
    Record::Data(Frame::new(header, &bits))
}

/// The words of two white lines.
pub fn white_words() -> String {
    "1111111".repeat(13) + "1101001"
}

/// Two white lines in detail mode, eleven inch: the scope paper's example.
pub fn white() -> Records {
    vec![
        set_up("0100"),
        data(0, 1725, (7, 7), State::WW, ""),
        data(1, 1725, (7, 7), State::WW, &white_words()),
        Record::End,
    ]
}

/// The octets of the example, every bit of it by hand but the checks, which
/// are those by [`SETTING`].
pub fn white_octets() -> Vec<u8> {
    let sync = "01100010 01111001 11011000";
    let ones = "1".repeat(30);
    let ones_and_zeros = "10".repeat(240);
    let zeros = "0".repeat(512);
    let x_1725 = "101111010110";
    let words = white_words();
    let frames = [
        format!("{sync} 00 00101 {ones} 0 0100 1 00000 0 00000 00000 00000 00000 {ones_and_zeros}"),
        format!("{sync} 00 10000 0000000000 {x_1725} 111 111 00 {zeros}"),
        format!("{sync} 01 10000 0100011000 {x_1725} 111 111 00 {words} {zeros}"),
    ];
    let mut octets = Vec::new();
    for (pair, text) in [SET_UP, DATA, DATA].into_iter().zip(frames) {
        let mut bits = bits(&text);
        bits.truncate(CHECK);
        let taken = bits[24..].iter().map(|bit| *bit == 1);
        let check = run(425, 3060, taken);
        bits.extend((0..12).map(|i| (check >> i & 1) as u8));
        octets.extend(pair);
        octets.extend(all_turned(&packed(&bits)));
    }
    octets.extend(END);
    octets
}

/// Two lines of which the upper is black, in four image frames, the second and
/// the third of 512 bits.
pub fn upper_black() -> Records {
    let first = format!("0000000 1 {}", "0".repeat(504));
    vec![
        set_up("0000"),
        data(0, 0, (7, 7), State::WW, &first),
        data(1, 504, (7, 6), State::BW, &"0".repeat(512)),
        data(2, 1016, (7, 6), State::BW, &"0".repeat(512)),
        data(3, 1528, (7, 6), State::BW, &"0".repeat(197)),
        Record::End,
    ]
}

/// The bits of a first row pair that is white but for column 64, which is
/// black, and of the move to a black column 0 of the next.
///
/// 64 columns leave the white length at 7, and a word of 0 lowers the black one
/// to 6. Behind the move to column 65 there are 1660 columns up to the right
/// edge: 13 times 127, and 9. So the white length falls to 6 there.
pub fn white_up_to_edge() -> String {
    let all_ones = "1111111".repeat(13);
    format!("0000001 0 0000000 0 {all_ones} 1001000 0")
}

/// The bits of the rest of the next row pair: column 0 is black, the others are
/// white, and behind the move to column 1 there are 1724: 63, 13 times 127, and
/// 10.
pub fn white_after_edge() -> String {
    let all_ones = "1111111".repeat(13);
    format!("000000 0 111111 {all_ones} 0101000")
}

/// The columns of these two row pairs.
pub fn white_about_edge() -> Vec<u8> {
    let mut columns = vec![State::WW.pels(); 2 * 1726];
    columns[64] = State::BB.pels();
    columns[1726] = State::BB.pels();
    columns
}

pub fn file(records: &[Record<Frame>]) -> Vec<u8> {
    stored(records, SETTING)
}

/// The frame of a record, to be changed.
pub fn frame(records: &mut [Record<Frame>], index: usize) -> &mut Frame {
    records[index].frame_mut().expect("a frame")
}

pub fn header(records: &mut [Record<Frame>], index: usize) -> &mut Header {
    &mut frame(records, index).header
}
