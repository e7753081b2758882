//! A raw capture: the line's bits as octets in sent order, with no records. Where
//! frames stand in it, and the frames that stand at some places as a page file.

use crate::file::{DATA, END, SET_UP};
use crate::frame::{HEADER, PADDING, RIGHT_SYNC};
use crate::octets::{all_turned, bit, packed};
use crate::page::fitting;
use crate::refusal::Refusal;
use crate::register::{HandedIn, Setting};

/// The bits of a frame, without its padding.
pub const FRAME: usize = PADDING;

/// The bits of the sync.
pub const SYNC: usize = HEADER;

/// What stands behind the sequence in the header of a set-up frame: 00101 and
/// thirty ones.
pub const OF_SET_UP: [u8; 35] = {
    let mut bits = [1; 35];
    bits[0] = 0;
    bits[1] = 0;
    bits[3] = 0;
    bits
};

/// Where that stands in a frame.
pub const BEHIND_SEQUENCE: usize = HEADER + 2;

/// All bits of a capture in the order sent, each 0 or 1.
pub fn bits(octets: &[u8]) -> Vec<u8> {
    (0..8 * octets.len())
        .map(|i| u8::from(bit(octets, i)))
        .collect()
}

/// The bits of a right sync.
pub const fn sync() -> [u8; SYNC] {
    let mut bits = [0; SYNC];
    let mut i = 0;
    while i < SYNC {
        bits[i] = RIGHT_SYNC[i / 8] >> (7 - i % 8) & 1;
        i += 1;
    }
    bits
}

/// The frame that starts where these bits do, as sent octets with a padding of 0,
/// if so many bits are there.
pub fn frame_at(bits: &[u8]) -> Option<Vec<u8>> {
    bits.get(..FRAME).map(packed)
}

/// Whether a frame starts where these bits do: there are enough of them, the
/// first ones are the sync, and the check agrees.
pub fn is_frame(bits: &[u8], setting: Setting) -> bool {
    bits.starts_with(&const { sync() })
        && frame_at(bits).is_some_and(|frame| setting.agrees(&frame))
}

/// The bits at which the frames of a capture start.
pub fn starts(bits: &[u8], setting: Setting) -> Vec<usize> {
    let mut starts = Vec::new();
    let mut place = 0;
    while place < bits.len() {
        if is_frame(&bits[place..], setting) {
            starts.push(place);
            place += FRAME;
        } else {
            place += 1;
        }
    }
    starts
}

/// The octet and the bit of each place.
pub fn list(starts: &[usize]) -> Vec<u64> {
    starts
        .iter()
        .flat_map(|start| [start / 8, start % 8].map(|number| number as u64))
        .collect()
}

/// The list of the frames in a capture, in a room of so many numbers.
pub fn find_frames(octets: &[u8], check: HandedIn, room: usize) -> Result<Vec<u64>, Refusal> {
    match check.allowed() {
        Some((setting, true)) => fitting(list(&starts(&bits(octets), setting)), room),
        _ => Err(Refusal::of_no_record(20)),
    }
}

/// The frames of a list as a page file, in a room of so many octets.
pub fn records_of_frames(octets: &[u8], list: &[u64], room: usize) -> Result<Vec<u8>, Refusal> {
    let bits = bits(octets);
    let entries = list.chunks_exact(2);
    let starts: Option<Vec<usize>> = entries.map(|entry| start(&bits, entry)).collect();
    let starts = starts.ok_or(Refusal::of_no_record(25))?;
    let mut file = Vec::new();
    for start in starts {
        file.extend(record(&bits[start..]));
    }
    file.extend(END);
    fitting(file, room)
}

/// The bit at which the frame of an entry starts, if the entry is allowed.
fn start(bits: &[u8], entry: &[u64]) -> Option<usize> {
    let [octet, bit] = [entry[0], entry[1]].map(u128::from);
    let start = 8 * octet + bit;
    let fits = start + FRAME as u128 <= bits.len() as u128;
    (bit <= 7 && fits).then_some(start as usize)
}

/// The record of the frame that starts where these bits do.
fn record(bits: &[u8]) -> Vec<u8> {
    let frame = frame_at(bits).expect("the entry was judged");
    let kind = if is_set_up(bits) { SET_UP } else { DATA };
    [kind.to_vec(), all_turned(&frame)].concat()
}

/// Whether the frame that starts where these bits do has the header of a set-up
/// behind its sequence.
pub fn is_set_up(bits: &[u8]) -> bool {
    bits[BEHIND_SEQUENCE..].starts_with(&OF_SET_UP)
}

#[cfg(test)]
mod tests;
