//! Random page files: any that a reader must accept, not only those that we
//! would write.

use super::{noise, Random};
use crate::file::write::{self, Coding, Unit};
use crate::file::{are_settings, Record, Records};
use crate::frame::{Frame, Header, RUN};
use crate::part::steps::{Due, Reading, Step};
use crate::part::BITS;
use crate::register::{Order, Setting, RFC_803_GENERATOR, SIZE};

/// An allowed check setting.
pub fn setting(random: &mut Random) -> Setting {
    let any = 1 + 2 * random.below(u64::from(SIZE) / 2) as u16;
    Setting {
        generator: random.pick(&[RFC_803_GENERATOR, any, any]),
        start: random.below(u64::from(SIZE)) as u16,
        first_bit: random.pick(&[0, 24]),
        order: random.pick(&Order::ALL),
    }
}

pub fn settings(random: &mut Random) -> u64 {
    let all: Vec<u64> = (0..16).filter(|number| are_settings(*number)).collect();
    random.pick(&all)
}

/// The image frames of a page: as we write it, or cut elsewhere.
pub fn image_frames(random: &mut Random, columns: &[u8]) -> Vec<Reading> {
    if random.chance(6) {
        let rate = random.pick(&write::RATES);
        let most = write::most_columns(rate).expect("one of the three rates");
        return write::image_frames(columns, most);
    }
    let habit = Habit::random(random);
    cut(random, columns, habit)
}

/// Image frames of which one ends on a closing word whose move out is missing,
/// if there is a move out of a run.
pub fn split_frames(random: &mut Random, columns: &[u8]) -> Vec<Reading> {
    let habit = Habit {
        splits_before: Some(random.below(columns.len() as u64 + 1) as usize),
        ..Habit::random(random)
    };
    cut(random, columns, habit)
}

/// Where frames end before they are full.
#[derive(Clone, Copy)]
struct Habit {
    /// Once in so many units.
    after_any: u64,
    after_all_ones: u64,
    after_open: u64,
    /// How often at most in all.
    times: u64,
    /// A closing word is parted from its move out where fewer columns are left.
    splits_before: Option<usize>,
}

impl Habit {
    fn random(random: &mut Random) -> Habit {
        let often = random.pick(&[3, 10, 10, 50, 200, u64::MAX]);
        Habit {
            after_any: often,
            after_all_ones: random.pick(&[2, often]),
            after_open: random.pick(&[2, often]),
            times: random.pick(&[1, 5, 20, 100]),
            splits_before: None,
        }
    }

    fn ends(&mut self, random: &mut Random, coding: &Coding) -> bool {
        let frame = coding.frames.last().expect("a frame was opened");
        let often = if frame.is_open() {
            self.after_open
        } else if coding.place.due == Due::FurtherWord {
            self.after_all_ones
        } else {
            self.after_any
        };
        let ends = self.times > 0 && random.below(often) == 0;
        self.times -= u64::from(ends);
        ends
    }
}

/// Image frames that end where the habit says, or are as full as can be.
fn cut(random: &mut Random, columns: &[u8], mut habit: Habit) -> Vec<Reading> {
    let mut coding = Coding::of(columns);
    coding.open_frame();
    let leaves_out_last_zero = random.chance(8);
    while let Some(unit) = coding.unit() {
        let fits = coding.bits + bits(&coding, unit) <= BITS as usize;
        if coding.bits > 0 && (!fits || habit.ends(random, &coding)) {
            coding.open_frame();
        }
        if leaves_out_last_zero && is_last_zero(&coding, unit) {
            break;
        }
        if unit.move_out.is_some() && habit.splits_before > Some(coding.rest.len()) {
            habit.splits_before = None;
            coding.put(Unit {
                move_out: None,
                ..unit
            });
            coding.open_frame();
        } else {
            coding.put(unit);
        }
    }
    coding.frames.retain(|frame| !frame.steps.is_empty());
    coding.frames
}

fn bits(coding: &Coding, unit: Unit) -> usize {
    let code = coding.place.code(unit.step);
    code.length + usize::from(unit.move_out.is_some())
}

/// Whether the page is told without the unit, a closing word of 0.
fn is_last_zero(coding: &Coding, unit: Unit) -> bool {
    coding.rest.is_empty() && !coding.frames[0].steps.is_empty() && unit.step == Step::Closing(0)
}

/// The records of image frames, with much in them that a reader does not judge.
pub fn records(random: &mut Random, settings: u64, frames: &[Reading]) -> Records {
    let mut records = write::records(settings, frames);
    if random.chance(3) {
        return records;
    }
    if random.chance(8) {
        put_in_empty_frames(random, &mut records);
    }
    if random.chance(4) && !frames.is_empty() {
        records.remove(1);
    }
    if random.chance(8) {
        put_in_set_ups(random, &mut records);
    }
    number_data_records(&mut records);
    let image = |record: &&mut Record<Frame>| is_image(record);
    if let Some(Record::Data(frame)) = records.iter_mut().find(image) {
        let any = random.below(4096) as u16;
        frame.header.x = random.pick(&[0, 1, 1724, 1725, 1726, 4095, any, any]);
    }
    if random.chance(8) {
        for record in &mut records {
            fill_what_is_not_judged(random, record);
        }
    }
    records
}

/// The records of some page.
#[cfg(test)]
pub fn whole(random: &mut Random) -> Records {
    let columns = super::columns::columns(random);
    let frames = image_frames(random, &columns);
    let settings = settings(random);
    records(random, settings, &frames)
}

/// Whether a record is a data record with bits.
pub fn is_image(record: &Record<Frame>) -> bool {
    matches!(record, Record::Data(frame) if frame.header.count > 0)
}

pub fn number_data_records(records: &mut [Record<Frame>]) {
    let mut sequence = 0;
    for record in records {
        if let Record::Data(frame) = record {
            frame.header.sequence = sequence % 4;
            sequence += 1;
        }
    }
}

/// Puts frames of no bits among the data records.
fn put_in_empty_frames(random: &mut Random, records: &mut Records) {
    for _ in 0..=random.below(4) {
        let at = 1 + random.below(records.len() as u64 - 1) as usize;
        records.insert(at, empty_frame(random));
    }
}

/// Puts set-ups behind the first one and before the end.
fn put_in_set_ups(random: &mut Random, records: &mut Records) {
    for _ in 0..random.below(3) {
        records.insert(1, set_up(random));
    }
    for _ in 0..random.below(3) {
        records.insert(records.len() - 1, set_up(random));
    }
}

pub fn set_up(random: &mut Random) -> Record<Frame> {
    let settings = settings(random);
    write::records(settings, &[]).swap_remove(0)
}

/// A data record of no bits and with any header.
pub fn empty_frame(random: &mut Random) -> Record<Frame> {
    let header = Header {
        count: 0,
        ..any_header(random, RUN)
    };
    let bits = noise(random, BITS as usize);
    Record::Data(Frame::new(header, &bits))
}

/// A header of any numbers, the sequence that of a set-up frame.
pub fn any_header(random: &mut Random, flags: u16) -> Header {
    let mut below = |limit| random.below(limit) as u16;
    Header {
        sequence: 0,
        flags,
        count: below(1024),
        x: below(4096),
        black: below(8),
        white: below(8),
        state: below(4),
    }
}

/// Fills flags, padding and the bits that have no meaning.
fn fill_what_is_not_judged(random: &mut Random, record: &mut Record<Frame>) {
    let flags = random.below(32) as u16;
    let used = match record {
        Record::SetUp(frame) => {
            frame.header = any_header(random, flags);
            5
        }
        Record::Data(frame) => {
            frame.header.flags = flags;
            usize::from(frame.header.count)
        }
        Record::End => return,
    };
    if let Some(frame) = record.frame_mut() {
        frame.padding = random.below(128) as u8;
        let rest = noise(random, BITS as usize - used);
        frame.data[used..].copy_from_slice(&rest);
    }
}

#[cfg(test)]
mod tests {
    use super::*;
    use crate::file::read::{read_page, Read};
    use crate::file::stored;
    use crate::page::{bitmap, columns};
    use crate::random;
    use crate::refusal::Refusal;
    use crate::register::HandedIn;

    fn columns(random: &mut Random) -> Vec<u8> {
        random::columns::columns(random)
    }

    fn read(random: &mut Random, records: &Records) -> Result<Read, Refusal> {
        let setting = setting(random);
        let check = HandedIn::of(setting, true);
        read_page(&stored(records, setting), check, usize::MAX)
    }

    #[test]
    fn files_read_back_as_their_pages() {
        let mut random = Random::new(803);
        for _ in 0..3000 {
            let columns = columns(&mut random);
            let frames = image_frames(&mut random, &columns);
            let settings = settings(&mut random);
            let records = records(&mut random, settings, &frames);
            let page = read(&mut random, &records).expect("a page");
            assert_eq!(page.bitmap, bitmap::written(&columns::page(&columns)));
            assert_eq!(page.columns, columns.len());
            assert_eq!(page.settings, settings);
            let bits: usize = frames.iter().map(|frame| frame.bits().len()).sum();
            assert_eq!(page.data_bits, bits as u64);
            assert_eq!(page.end, records.len() as u64 - 1);
            assert_eq!(page.used, 76 * (records.len() - 1) + 2);
        }
    }

    #[test]
    fn frames_end_in_every_way() {
        let mut random = Random::new(585);
        let mut seen = [0; 6];
        for _ in 0..2000 {
            let columns = columns(&mut random);
            let frames = image_frames(&mut random, &columns);
            for (i, frame) in frames.iter().enumerate() {
                let is_last = i + 1 == frames.len();
                assert!((1..=512).contains(&frame.bits().len()));
                assert!(is_last || !frame.is_closed());
                assert!(!is_last || !frame.is_open());
                let further = frame.end().due == Due::FurtherWord;
                seen[0] += usize::from(frame.is_open());
                seen[1] += usize::from(further);
                seen[2] += usize::from(further && is_last);
                seen[3] += usize::from(frame.is_closed());
                seen[4] += usize::from(is_last && !frame.is_closed());
                seen[5] += usize::from(frame.bits().len() == 512);
            }
        }
        assert!(seen.iter().all(|times| *times > 5), "{seen:?}");
    }

    #[test]
    fn split_frames_are_refused_by_12_or_read() {
        let mut random = Random::new(12);
        let mut refused = 0;
        for _ in 0..500 {
            let columns = columns(&mut random);
            let frames = split_frames(&mut random, &columns);
            let records = records(&mut random, 0, &frames);
            match read(&mut random, &records) {
                Ok(page) => assert_eq!(page.columns, columns.len()),
                Err(refusal) => {
                    assert_eq!(refusal.number, 12);
                    refused += 1;
                }
            }
        }
        assert!(refused > 250, "{refused}");
    }

    #[test]
    fn settings_of_all_kinds_are_made() {
        let mut random = Random::new(9);
        let made: Vec<u64> = (0..1000).map(|_| settings(&mut random)).collect();
        for number in [0, 1, 2, 4, 5, 6, 8, 9, 10] {
            assert!(made.contains(&number));
        }
        let mut of_order = [0; 2];
        for _ in 0..1000 {
            let Setting {
                generator,
                start,
                first_bit,
                order,
            } = setting(&mut random);
            assert!(generator % 2 == 1 && generator < 4096 && start < 4096);
            assert!(first_bit == 0 || first_bit == 24);
            of_order[order as usize] += 1;
        }
        assert!(of_order.iter().all(|times| *times > 400), "{of_order:?}");
    }
}
