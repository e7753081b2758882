//! Records that are refused, or are on the edge of it. Their checks are made
//! afterwards, so they are right.

use crate::file::{Record, Records};
use crate::frame::{Frame, RUN};
use crate::part::{lookahead, State, BITS, EDGE};
use crate::random::file::{any_header, empty_frame, is_image, number_data_records, set_up};
use crate::random::{noise, Random};

type Spoil = fn(&mut Random, &mut Records);
type SpoilFrame = fn(&mut Random, &mut Frame);

/// Each makes records that are refused by 3.
const BY_3: [Spoil; 6] = [
    data_first,
    end_first,
    end_without_data,
    end_before_data,
    set_up_among_data,
    data_after_last_set_up,
];

// Each makes a frame that is refused by the number. They stand in the order in
// which they are judged.

const IN_ANY_DATA: [(u64, SpoilFrame); 2] = [(4, other_sync), (7, other_sequence)];

const IN_SET_UP: [(u64, SpoilFrame); 5] = [
    (4, other_sync),
    (7, other_sequence),
    (6, start_bit),
    (6, both_modes),
    (6, both_papers),
];

const IN_FIRST_IMAGE: [(u64, SpoilFrame); 8] = [
    (4, other_sync),
    (7, other_sequence),
    (8, large_count),
    (9, small_black),
    (9, small_white),
    (10, other_state),
    (10, other_size),
    (11, no_reading_of_page),
];

const IN_LATER_IMAGE: [(u64, SpoilFrame); 9] = [
    (4, other_sync),
    (7, other_sequence),
    (8, large_count),
    (9, small_black),
    (9, small_white),
    (10, other_state),
    (10, other_size),
    (10, other_x),
    (11, no_reading),
];

/// Each makes any records, refused or not.
const CHANGES: [Spoil; 11] = [
    add_frame,
    drop_one,
    double_one,
    exchange_two,
    change_kind,
    cut_page,
    turn_data_bit,
    change_count,
    take_count,
    change_mixed_state,
    change_settings,
];

pub fn spoil(random: &mut Random, records: &mut Records) {
    match random.below(16) {
        0..=1 => {
            random.pick(&BY_3)(random, records);
            if random.chance(6) {
                spoil_frame(random, records, 1);
            }
        }
        2..=5 => {
            random.pick(&CHANGES)(random, records);
            if random.chance(12) {
                number_data_records(records);
            }
        }
        6..=12 => {
            spoil_frame(random, records, 1);
        }
        _ => {
            spoil_frame(random, records, 3);
        }
    }
}

/// Spoils the data of an image frame, if there is one, so that it has no reading,
/// and gives the frame's index.
pub fn spoil_part(random: &mut Random, records: &mut Records) -> Option<usize> {
    let images = indices(records, is_image);
    let first = *images.first()?;
    let at = random.pick(&images);
    let spoil = if at == first {
        no_reading_of_page
    } else {
        no_reading
    };
    spoil(random, records[at].frame_mut()?);
    Some(at)
}

/// Spoils a frame in one way or in several, and gives its index and the number
/// that it is refused by.
fn spoil_frame(random: &mut Random, records: &mut Records, most: u64) -> Option<(usize, u64)> {
    let at = some_frame(random, records)?;
    let ways = ways(records, at);
    let mut chosen = vec![false; ways.len()];
    for _ in 0..most {
        chosen[random.below(ways.len() as u64) as usize] = true;
    }
    let frame = records[at].frame_mut()?;
    let mut number = None;
    // The last one first, as a count or a size that is wrong would be in its way.
    for ((way, spoil), _) in ways.iter().zip(chosen).rev().filter(|(_, own)| *own) {
        spoil(random, frame);
        number = Some(*way);
    }
    Some((at, number?))
}

/// A frame, often one of bits, and often the first or the last of these.
fn some_frame(random: &mut Random, records: &Records) -> Option<usize> {
    let frames = indices(records, |record| record.frame().is_some());
    let images = indices(records, is_image);
    let frames = if images.is_empty() || random.chance(5) {
        frames
    } else {
        images
    };
    match random.below(4) {
        0 => frames.first().copied(),
        1 => frames.last().copied(),
        _ => (!frames.is_empty()).then(|| random.pick(&frames)),
    }
}

fn ways(records: &Records, at: usize) -> &'static [(u64, SpoilFrame)] {
    let first = records.iter().position(is_image);
    match &records[at] {
        Record::SetUp(_) => &IN_SET_UP,
        Record::Data(_) if first == Some(at) => &IN_FIRST_IMAGE,
        record if is_image(record) => &IN_LATER_IMAGE,
        _ => &IN_ANY_DATA,
    }
}

/// The indices of the records of which something is true.
fn indices(records: &Records, is_so: impl Fn(&Record<Frame>) -> bool) -> Vec<usize> {
    let all = 0..records.len();
    all.filter(|index| is_so(&records[*index])).collect()
}

fn is_data(record: &Record<Frame>) -> bool {
    matches!(record, Record::Data(_))
}

fn data_first(_: &mut Random, records: &mut Records) {
    let first = records.iter().position(is_data).unwrap_or(0);
    records.drain(..first);
}

fn end_first(_: &mut Random, records: &mut Records) {
    records.insert(0, Record::End);
}

fn end_without_data(_: &mut Random, records: &mut Records) {
    records.retain(|record| !is_data(record));
}

fn end_before_data(_: &mut Random, records: &mut Records) {
    let first = records.iter().position(is_data).unwrap_or(0);
    records.insert(first, Record::End);
}

/// A set-up before a data record that is not the first.
fn set_up_among_data(random: &mut Random, records: &mut Records) {
    match &indices(records, is_data)[..] {
        [_, later @ ..] if !later.is_empty() => {
            let at = random.pick(later);
            records.insert(at, set_up(random));
        }
        _ => data_after_last_set_up(random, records),
    }
}

fn data_after_last_set_up(random: &mut Random, records: &mut Records) {
    let end = records.len() - 1;
    records.splice(end..end, [set_up(random), empty_frame(random)]);
    number_data_records(records);
}

fn other_sync(random: &mut Random, frame: &mut Frame) {
    let bit = random.below(24) as usize;
    match random.below(8) {
        0 => frame.sync = frame.sync.map(|octet| !octet),
        _ => frame.sync[bit / 8] ^= 1 << (bit % 8),
    }
}

fn other_sequence(random: &mut Random, frame: &mut Frame) {
    let other = frame.header.sequence + 1 + random.below(3) as u16;
    frame.header.sequence = other % 4;
}

fn start_bit(_: &mut Random, frame: &mut Frame) {
    frame.data[0] = 1;
}

fn both_modes(_: &mut Random, frame: &mut Frame) {
    frame.data[1..3].fill(1);
}

fn both_papers(_: &mut Random, frame: &mut Frame) {
    frame.data[3..5].fill(1);
}

fn large_count(random: &mut Random, frame: &mut Frame) {
    let any = 513 + random.below(511) as u16;
    frame.header.count = random.pick(&[513, 513, 514, 768, 1023, any]);
}

fn small_black(random: &mut Random, frame: &mut Frame) {
    frame.header.black = random.below(2) as u16;
}

fn small_white(random: &mut Random, frame: &mut Frame) {
    frame.header.white = random.below(2) as u16;
}

/// A state that a frame with this one may not start in, even after an open
/// column.
fn other_state(random: &mut Random, frame: &mut Frame) {
    let own = state(frame);
    let mut others = State::ALL.to_vec();
    others.retain(|state| *state != own && (own.is_solid() || state.is_solid()));
    frame.header.state = random.pick(&others).pels().into();
}

/// Another size that is allowed, mostly by one.
fn other_size(random: &mut Random, frame: &mut Frame) {
    let size = match random.below(2) {
        0 => &mut frame.header.black,
        _ => &mut frame.header.white,
    };
    let mut others: Vec<u16> = (2..=7).filter(|other| other != size).collect();
    if random.chance(12) {
        others.retain(|other| other.abs_diff(*size) == 1);
    }
    *size = random.pick(&others);
}

fn other_x(random: &mut Random, frame: &mut Frame) {
    let own = frame.header.x;
    let any = random.below(4096) as u16;
    let near = random.pick(&[1, 2, 1725, 1726, 4095]);
    let other = random.pick(&[(own + near) % 4096, (own + near) % 1726, 1725, any]);
    frame.header.x = if other == own { own ^ 1 } else { other };
}

/// Data that has no reading from the header's start.
fn no_reading(random: &mut Random, frame: &mut Frame) {
    no_reading_from(random, frame, frame.header.x.into());
}

/// Data that has no reading from the page's start, whatever X the header says.
fn no_reading_of_page(random: &mut Random, frame: &mut Frame) {
    no_reading_from(random, frame, EDGE);
}

/// Data that has no reading from this X and the rest of the header's start.
fn no_reading_from(random: &mut Random, frame: &mut Frame, x: usize) {
    for _ in 0..8 {
        let mut other = frame.clone();
        match random.below(8) {
            0..=3 => turn_bit(random, &mut other),
            4..=6 => other.header.count = near_count(random, other.header.count),
            _ => put_noise(random, &mut other),
        }
        if !has_reading(&other, x) {
            *frame = other;
            return;
        }
    }
    // Half a word, or a bit that no move out of a mixed state begins with.
    if state(frame).is_solid() {
        frame.header.count = 1;
    } else {
        frame.data[0] ^= 1;
    }
}

/// A count that differs little, if at all, and is not 0.
fn near_count(random: &mut Random, count: u16) -> u16 {
    let least = count.saturating_sub(8).max(1);
    (least + random.below(17) as u16).min(BITS as u16)
}

/// Puts noise in the place of the data bits from one on that is counted.
fn put_noise(random: &mut Random, frame: &mut Frame) {
    let from = random.below(frame.header.count.into()) as usize;
    let noise = noise(random, frame.data.len() - from);
    frame.data.splice(from.., noise);
}

/// Turns a data bit that is counted.
fn turn_bit(random: &mut Random, frame: &mut Frame) {
    let bit = random.below(frame.header.count.into());
    frame.data[bit as usize] ^= 1;
}

fn state(frame: &Frame) -> State {
    State::ALL[usize::from(frame.header.state)]
}

fn has_reading(frame: &Frame, x: usize) -> bool {
    lookahead::read(frame.start(x), frame.counted()).is_some()
}

/// Puts a frame with any header behind the last one. That one mostly ended on a
/// closing word.
fn add_frame(random: &mut Random, records: &mut Records) {
    let bits = noise(random, BITS as usize);
    let frame = Frame::new(any_header(random, RUN), &bits);
    let last = records.iter().rposition(is_data).expect("a file has data");
    records.insert(last + 1, Record::Data(frame));
}

fn drop_one(random: &mut Random, records: &mut Records) {
    records.remove(some_index(random, records));
}

fn double_one(random: &mut Random, records: &mut Records) {
    let at = some_index(random, records);
    records.insert(at, records[at].clone());
}

fn exchange_two(random: &mut Random, records: &mut Records) {
    let at = some_index(random, records);
    let any = some_index(random, records);
    let other = random.pick(&[at.saturating_sub(1), any]);
    records.swap(at, other);
}

fn change_kind(random: &mut Random, records: &mut Records) {
    let at = some_index(random, records);
    records[at] = match records[at].clone() {
        Record::SetUp(frame) => Record::Data(frame),
        Record::Data(frame) => Record::SetUp(frame),
        Record::End => set_up(random),
    };
}

/// Takes away the data records from some one on.
fn cut_page(random: &mut Random, records: &mut Records) {
    let data = indices(records, is_data);
    if let Some((_, later)) = data.split_first() {
        let first = random.below(data.len() as u64) as usize;
        for at in later.iter().skip(first).rev() {
            records.remove(*at);
        }
    }
}

fn turn_data_bit(random: &mut Random, records: &mut Records) {
    change_image(random, records, turn_bit);
}

fn change_count(random: &mut Random, records: &mut Records) {
    change_image(random, records, |random, frame| {
        let near = near_count(random, frame.header.count);
        frame.header.count = random.pick(&[near, near, near, 512]);
    });
}

/// Makes an image frame one of no bits.
fn take_count(random: &mut Random, records: &mut Records) {
    change_image(random, records, |_, frame| frame.header.count = 0);
}

/// Makes WB of BW or BW of WB, which tells another open column.
fn change_mixed_state(random: &mut Random, records: &mut Records) {
    let is_mixed = |record: &Record<Frame>| {
        let frame = record.frame().filter(|_| is_image(record));
        frame.is_some_and(|frame| !state(frame).is_solid())
    };
    let mixed = indices(records, is_mixed);
    if mixed.is_empty() {
        return turn_data_bit(random, records);
    }
    let at = random.pick(&mixed);
    if let Some(frame) = records[at].frame_mut() {
        frame.header.state ^= 0b11;
    }
}

fn change_settings(random: &mut Random, records: &mut Records) {
    let set_ups = indices(records, |record| matches!(record, Record::SetUp(_)));
    let at = random.pick(&set_ups);
    records[at] = set_up(random);
}

fn change_image(
    random: &mut Random,
    records: &mut Records,
    change: impl Fn(&mut Random, &mut Frame),
) {
    let images = indices(records, is_image);
    if !images.is_empty() {
        let at = random.pick(&images);
        if let Some(frame) = records[at].frame_mut() {
            change(random, frame);
        }
    }
}

fn some_index(random: &mut Random, records: &Records) -> usize {
    random.below(records.len() as u64) as usize
}

#[cfg(test)]
mod tests {
    use super::*;
    use crate::file::read::read_page;
    use crate::file::stored;
    use crate::random::file::whole;
    use crate::register::{HandedIn, Order, Setting};

    /// The number and the record, or twice 0.
    fn read(records: &Records) -> (u64, u64) {
        let setting = Setting {
            generator: 425,
            start: 1,
            first_bit: 0,
            order: Order::LowFirst,
        };
        let check = HandedIn::of(setting, true);
        read_page(&stored(records, setting), check, usize::MAX)
            .map_or_else(|refusal| (refusal.number, refusal.record), |_| (0, 0))
    }

    /// Each of some random files by its records.
    fn files(number: u64) -> impl Iterator<Item = (Random, Records)> {
        (0..number).map(|seed| {
            let mut random = Random::new(seed);
            let records = whole(&mut random);
            (random, records)
        })
    }

    #[test]
    fn records_out_of_place_are_refused_by_3() {
        for (mut random, records) in files(200) {
            for spoil in BY_3 {
                let mut records = records.clone();
                spoil(&mut random, &mut records);
                assert_eq!(read(&records).0, 3);
            }
        }
    }

    #[test]
    fn spoilt_frames_are_refused_by_their_first_number() {
        let mut numbers = [0; 12];
        for (mut random, records) in files(1500) {
            for most in [1, 3] {
                let mut records = records.clone();
                let (at, number) = spoil_frame(&mut random, &mut records, most).expect("a frame");
                assert_eq!(read(&records), (number, at as u64));
                numbers[number as usize] += 1;
            }
        }
        for number in [4, 6, 7, 8, 9, 10, 11] {
            assert!(numbers[number] > 50, "{numbers:?}");
        }
    }

    #[test]
    fn spoilt_parts_are_refused_by_11() {
        for (mut random, mut records) in files(1500) {
            let at = spoil_part(&mut random, &mut records).expect("an image frame");
            assert_eq!(read(&records), (11, at as u64));
        }
    }

    #[test]
    fn changes_are_refused_or_not() {
        let mut numbers = [0; 17];
        for (mut random, records) in files(500) {
            for change in CHANGES {
                let mut records = records.clone();
                change(&mut random, &mut records);
                number_data_records(&mut records);
                numbers[read(&records).0 as usize] += 1;
            }
        }
        for number in [0, 1, 3, 6, 7, 8, 10, 11, 12, 13, 14] {
            assert!(numbers[number] > 3, "{number}: {numbers:?}");
        }
    }
}
