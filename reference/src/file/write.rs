//! Writing a page file: a page's columns as units, the units as image frames,
//! the frames as records.

use super::{are_settings, stored, Record, Records};
use crate::frame::{Frame, Header, RUN};
use crate::octets::bits_high_first;
use crate::page::{bitmap, columns, fitting};
use crate::part::steps::{Due, Place, Reading, Step};
use crate::part::{Start, State};
use crate::refusal::Refusal;
use crate::register::{HandedIn, Setting};

/// The bits a second that a page may be sent at.
pub const RATES: [u64; 3] = [2400, 4800, 9600];

/// A frame with more bits is closed.
pub const MOST_BITS: usize = 500;

/// The file of a bitmap, settings as the number of their four bits.
pub fn write_page(
    bitmap: &[u8],
    settings: u64,
    rate: u64,
    check: HandedIn,
    room: usize,
) -> Result<Vec<u8>, Refusal> {
    let refused = Refusal::of_no_record;
    let setting = written_by(check).ok_or(refused(20))?;
    let most_columns = most_columns(rate).ok_or(refused(20))?;
    let columns = columns::of(&bitmap::read(bitmap)?);
    if !are_settings(settings) {
        return Err(refused(6));
    }
    if !can_be_told(&columns) {
        return Err(refused(19));
    }
    let frames = image_frames(&columns, most_columns);
    fitting(stored(&records(settings, &frames), setting), room)
}

/// The setting, if it is allowed and compared.
fn written_by(check: HandedIn) -> Option<Setting> {
    let (setting, compare) = check.allowed()?;
    compare.then_some(setting)
}

/// A frame with more columns is closed at this rate, if it is one of the three.
pub fn most_columns(rate: u64) -> Option<usize> {
    match rate {
        2400 => Some(9600),
        4800 => Some(4800),
        9600 => Some(2400),
        _ => None,
    }
}

/// Whether the page does not end in a column that would stay open.
pub fn can_be_told(columns: &[u8]) -> bool {
    let is_solid = |pels: u8| State::ALL[usize::from(pels)].is_solid();
    !matches!(columns, [.., before, last] if is_solid(*before) && !is_solid(*last))
}

/// The image frames of a page.
pub fn image_frames(columns: &[u8], most_columns: usize) -> Vec<Reading> {
    coded(columns, |coding| coding.is_full(most_columns))
}

/// The image frames of a page, each closed after the first of its units of which
/// `closes` says so.
pub fn coded(columns: &[u8], mut closes: impl FnMut(&mut Coding) -> bool) -> Vec<Reading> {
    let mut coding = Coding::of(columns);
    let mut is_closed = true;
    while let Some(unit) = coding.unit() {
        if is_closed {
            coding.open_frame();
        }
        coding.put(unit);
        is_closed = closes(&mut coding);
    }
    coding.frames
}

/// What may not be parted by a frame's end.
#[derive(Clone, Copy, Debug, PartialEq, Eq)]
pub struct Unit {
    pub step: Step,
    /// The move out of a closing word, missing only where that ends the page.
    pub move_out: Option<Step>,
}

impl Unit {
    pub fn steps(self) -> impl Iterator<Item = Step> {
        [self.step].into_iter().chain(self.move_out)
    }
}

/// A page on its way into image frames. Who codes it says where frames end.
pub struct Coding<'a> {
    pub frames: Vec<Reading>,
    /// The bits of the last frame.
    pub bits: usize,
    /// Its columns, one that would be left open counted.
    pub columns: usize,
    pub place: Place,
    /// The columns that are not yet told.
    pub rest: &'a [u8],
}

impl<'a> Coding<'a> {
    pub fn of(columns: &'a [u8]) -> Coding<'a> {
        Coding {
            frames: Vec::new(),
            bits: 0,
            columns: 0,
            place: Place::of(Start::OF_PAGE),
            rest: columns,
        }
    }

    /// The unit that is due, if the page is not told. It is the same whether a
    /// frame ends before it or not; only what follows from it may differ.
    pub fn unit(&self) -> Option<Unit> {
        if self.place.due == Due::Move {
            let step = self.move_past(0)?;
            return Some(Unit {
                step,
                move_out: None,
            });
        }
        let all_ones = self.place.all_ones();
        let own = self.place.state.pels();
        let word = self.rest.iter().take(all_ones as usize);
        let run = word.take_while(|pels| **pels == own).count();
        if run as u64 == all_ones {
            return Some(Unit {
                step: Step::AllOnes,
                move_out: None,
            });
        }
        Some(Unit {
            step: Step::Closing(run as u64),
            move_out: self.move_past(run),
        })
    }

    /// The move to the column after so many, if there is one.
    fn move_past(&self, columns: usize) -> Option<Step> {
        let pels = self.rest.get(columns)?;
        Some(Step::Move(State::ALL[usize::from(*pels)]))
    }

    /// Whether the last frame is to be closed.
    pub fn is_full(&self, most_columns: usize) -> bool {
        self.bits > MOST_BITS || self.columns > most_columns
    }

    pub fn open_frame(&mut self) {
        let start = self.place.start();
        self.place = Place::of(start);
        self.bits = 0;
        self.columns = 0;
        self.frames.push(Reading {
            start,
            steps: Vec::new(),
        });
    }

    /// Puts a unit into the frame that was opened last.
    pub fn put(&mut self, unit: Unit) {
        let frame = self.frames.last_mut().expect("a frame was opened");
        for step in unit.steps() {
            let (_, columns) = self.place.lays(step);
            frame.steps.push((self.place, step));
            self.bits += self.place.code(step).length;
            self.columns += columns;
            self.rest = &self.rest[columns..];
            self.place = self.place.after(step);
        }
    }
}

/// The records of a page: set-up, a frame of no bits, image frames, end.
pub fn records(settings: u64, frames: &[Reading]) -> Records {
    let no_bits = Reading {
        start: Start::OF_PAGE,
        steps: Vec::new(),
    };
    let mut records = vec![Record::SetUp(set_up(settings))];
    for (sequence, frame) in (0..).zip([&no_bits].into_iter().chain(frames)) {
        records.push(Record::Data(data(sequence, frame)));
    }
    records.push(Record::End);
    records
}

fn set_up(settings: u64) -> Frame {
    let start = [0];
    let paper_present = [1];
    let spare_multi_page_and_zeros = [0; 5 + 1 + 20];
    let bits: Vec<u8> = start
        .into_iter()
        .chain(bits_high_first(settings, 4))
        .chain(paper_present)
        .chain(spare_multi_page_and_zeros)
        .chain([1, 0].repeat(240))
        .collect();
    Frame::new(Header::OF_SET_UP, &bits)
}

fn data(sequence: usize, frame: &Reading) -> Frame {
    let bits = frame.bits();
    let Start {
        state,
        black,
        white,
        x,
    } = frame.start;
    let header = Header {
        sequence: (sequence % 4) as u16,
        flags: RUN,
        count: bits.len() as u16,
        x: x as u16,
        black: black as u16,
        white: white as u16,
        state: state.pels().into(),
    };
    Frame::new(header, &bits)
}

#[cfg(test)]
mod tests {
    use super::*;
    use crate::file::by_hand::{
        bits, white_about_edge, white_after_edge, white_octets, white_up_to_edge, COMPARED,
        NOT_COMPARED, SETTING,
    };
    use crate::file::read::read_page;
    use crate::frame;
    use crate::listing;
    use crate::octets::high_first;
    use crate::random::{self, Random};

    /// A state and a number of columns in it.
    type Run = (u8, usize);

    const WW: u8 = 0b00;
    const WB: u8 = 0b01;
    const BW: u8 = 0b10;
    const BB: u8 = 0b11;

    fn columns_of(runs: &[Run]) -> Vec<u8> {
        let runs = runs.iter().map(|(pels, number)| vec![*pels; *number]);
        runs.collect::<Vec<_>>().concat()
    }

    /// The bitmap of runs that fill row pairs.
    fn bitmap_of(runs: &[Run]) -> Vec<u8> {
        bitmap::written(&columns::page(&columns_of(runs)))
    }

    /// The headers of the image frames.
    fn headers(runs: &[Run], rate: u64) -> Vec<Header> {
        let most = most_columns(rate).expect("a rate");
        let records = records(0, &image_frames(&columns_of(runs), most));
        let frames = records.iter().filter_map(Record::frame).skip(2);
        frames.map(|frame| frame.header).collect()
    }

    fn counts(runs: &[Run], rate: u64) -> Vec<u16> {
        headers(runs, rate).iter().map(|own| own.count).collect()
    }

    fn number(bitmap: &[u8], settings: u64, rate: u64, check: HandedIn, room: usize) -> u64 {
        write_page(bitmap, settings, rate, check, room).map_or_else(Refusal::returned, |_| 0)
    }

    #[test]
    fn the_example_is_written() {
        let bitmap = bitmap_of(&[(WW, 1726)]);
        let file = write_page(&bitmap, 4, 4800, COMPARED, 230);
        assert_eq!(file, Ok(white_octets()));
    }

    #[test]
    fn settings_are_the_bits_behind_the_start() {
        for settings in [0, 1, 2, 4, 5, 6, 8, 9, 10] {
            let sent = set_up(settings).sent(SETTING);
            let five = u64::from(high_first(&sent, frame::DATA, 5));
            assert_eq!(five, settings);
        }
    }

    /// The runs of units of eight bits, of which the last moves into BW.
    fn eights(units: usize) -> Vec<Run> {
        let solid = [BB, WW].into_iter().cycle().map(|state| (state, 33));
        let first = [(WW, 32)].into_iter();
        first
            .chain(solid.take(units - 1))
            .chain([(BW, 1)])
            .collect()
    }

    /// Makes two row pairs of runs by making the first `units` longer, which
    /// does not change their bits.
    fn two_pairs(mut runs: Vec<Run>, units: usize) -> Vec<Run> {
        let missing = 2 * 1726 - columns_of(&runs).len();
        for (i, run) in runs[..units].iter_mut().enumerate() {
            run.1 += missing / units + usize::from(i < missing % units);
        }
        assert_eq!(columns_of(&runs).len(), 2 * 1726);
        runs
    }

    #[test]
    fn frames_go_on_at_500_bits_and_close_at_501() {
        for (more, wanted) in [
            (3, &[499][..]),
            (4, &[500]),
            (5, &[501]),
            (6, &[501, 1]),
            (506, &[501, 501]),
            (507, &[501, 501, 1]),
        ] {
            let runs = [&eights(62)[..], &[(BW, more)]].concat();
            let runs = two_pairs(runs, 62);
            assert_eq!(counts(&runs, 2400), wanted);
            assert_eq!(counts(&runs, 4800), wanted);
        }
    }

    #[test]
    fn a_frame_has_508_bits_at_most() {
        // 496 bits, four to WW, a unit of eight, and words of ones only.
        let runs = [&eights(61)[..], &[(BW, 8), (WW, 33), (BB, 1 + 4 * 127)]].concat();
        let headers = headers(&two_pairs(runs, 61), 4800);
        assert_eq!(headers[0].count, 508);
        assert_eq!(headers[1].count, 5 * 7);
        assert_eq!(headers[1].state, BB.into());
    }

    #[test]
    fn white_frames_are_as_long_as_the_rate_allows() {
        let page = [(WW, 3 * 1726)];
        assert_eq!(counts(&page, 2400), [287]);
        assert_eq!(counts(&page, 4800), [266, 21]);
        assert_eq!(counts(&page, 9600), [133, 133, 21]);
        let page = [(WW, 6 * 1726)];
        assert_eq!(counts(&page, 2400), [504, 70]);
    }

    #[test]
    fn columns_at_the_limit_go_on_and_one_more_closes() {
        for (rate, most) in [(4800, 4800), (9600, 2400)] {
            let all_ones = (most - 1) / 127;
            let closing = (7 * all_ones + 8) as u16;
            let total = 4 * 1726;
            let page = |white, then| [(WW, white), (then, total - white)];
            for then in [BB, BW, WB] {
                let at_limit = headers(&page(most - 1, then), rate);
                assert!(at_limit[0].count > closing);
                let above = headers(&page(most, then), rate);
                assert_eq!(above[0].count, closing);
                // The column that is left open counts as laid.
                assert_eq!(above[1].state, then.into());
                assert_eq!(usize::from(above[1].x), most % 1726);
            }
        }
    }

    #[test]
    fn a_last_run_gets_its_closing_word() {
        // Nothing is left for it after a move, or after words of ones only.
        let moved = [(WW, 1725), (BB, 1)];
        assert_eq!(counts(&moved, 2400), [13 * 7 + 8 + 7]);
        let filled = [(WW, 74), (BB, 1 + 13 * 127)];
        assert_eq!(counts(&filled, 2400), [8 + 13 * 7 + 7]);
        // A mixed one needs none.
        let mixed = [(WW, 1724), (WB, 2)];
        assert_eq!(counts(&mixed, 2400), [13 * 7 + 8 + 1]);
    }

    #[test]
    fn a_closing_word_may_have_a_frame_of_its_own() {
        // 500 bits up to WW, then a unit of eight into the page's last column.
        let runs = [&eights(61)[..], &[(BW, 8), (WW, 33), (BB, 1)]].concat();
        let runs = two_pairs(runs, 61);
        for rate in [2400, 4800] {
            let headers = headers(&runs, rate);
            assert_eq!([headers[0].count, headers[1].count], [508, 7]);
            assert_eq!((headers[1].x, headers[1].state), (1725, BB.into()));
            assert_eq!(headers.len(), 2);
        }
        let bitmap = bitmap_of(&runs);
        let file = write_page(&bitmap, 0, 2400, COMPARED, usize::MAX).expect("a file");
        let page = read_page(&file, COMPARED, usize::MAX).expect("a page");
        assert_eq!((page.bitmap, page.data_bits), (bitmap, 515));
    }

    #[test]
    fn a_length_falls_at_the_right_edge() {
        let words = white_up_to_edge() + &white_after_edge();
        for rate in [2400, 4800] {
            let most = most_columns(rate).expect("a rate");
            let frames = image_frames(&white_about_edge(), most);
            let written: Vec<_> = frames.iter().map(Reading::bits).collect();
            assert_eq!(written, [bits(&words)]);
        }
        // By the rule before, the second pair has no word of 63 columns.
        let earlier = earlier_frames(&white_about_edge(), 9600);
        let all_ones = "1111111".repeat(13);
        let words = white_up_to_edge() + &format!("000000 0 {all_ones} 1001001");
        let written: Vec<_> = earlier.iter().map(Reading::bits).collect();
        assert_eq!(written, [bits(&words)]);
    }

    /// The header of a page's second image frame, in which its second row pair
    /// goes on, all mixed. Its first is of these runs.
    fn second_header(runs: &[Run], mixed: u8) -> Header {
        headers(&[runs, &[(mixed, 1726)]].concat(), 4800)[1]
    }

    #[test]
    fn the_next_header_says_the_length_after_the_right_edge() {
        // 8 bits, 8, 13 words of ones, a word of 9, a move, and 386 mixed columns
        // after column 0.
        let header = second_header(&[(WW, 64), (BB, 1), (WW, 1661)], WB);
        assert_eq!((header.x, header.state), (386, WB.into()));
        assert_eq!((header.black, header.white), (6, 6));
        // 8 bits, 13 words of ones, a word of 10, a move, and 394 mixed columns.
        let header = second_header(&[(WW, 64), (BB, 1662)], BW);
        assert_eq!((header.x, header.state), (394, BW.into()));
        assert_eq!((header.black, header.white), (6, 7));
        // A column less or more of the run, and it does not end there.
        let header = second_header(&[(WW, 64), (BB, 1661), (BW, 1)], BW);
        assert_eq!((header.x, header.black, header.white), (393, 7, 7));
        let over = [(WW, 64), (BB, 1663), (BW, 1725)];
        let header = headers(&over, 4800)[1];
        assert_eq!((header.x, header.black, header.white), (395, 7, 7));
    }

    /// The image frames of a page by the rule before, for which a run that ends at
    /// the right edge is as any other. Tests alone have it, to show which pages are
    /// written otherwise now.
    fn earlier_frames(columns: &[u8], most_columns: usize) -> Vec<Reading> {
        coded(columns, |coding| {
            let frame = coding.frames.last().expect("a frame was opened");
            if let [.., (from, word), (_, Step::Move(_))] = frame.steps[..] {
                let place = &mut coding.place;
                match from.state.pels() {
                    WW if from.falls_at_edge(word) => place.white = from.white,
                    BB if from.falls_at_edge(word) => place.black = from.black,
                    _ => {}
                }
            }
            coding.is_full(most_columns)
        })
    }

    /// The bitmap of a sample, which is a portable bitmap: its lines end it.
    fn bitmap_of_sample(portable: &[u8]) -> Vec<u8> {
        let lines = portable.len() / bitmap::LINE;
        let (_, rows) = portable.split_at(portable.len() - bitmap::LINE * lines);
        let [low, high] = (lines as u16).to_le_bytes();
        [&[190, 6, low, high], rows].concat()
    }

    /// The file of a sample in detail mode, by the setting that docs/CHECK-SETTING.md
    /// records, and the one by the rule before.
    fn files_of_sample(portable: &[u8], rate: u64) -> [Vec<u8>; 2] {
        let bitmap = bitmap_of_sample(portable);
        let check = HandedIn::of(listing::SETTING, true);
        let file = write_page(&bitmap, 4, rate, check, usize::MAX).expect("a file");
        let columns = columns::of(&bitmap::read(&bitmap).expect("a bitmap"));
        let most = most_columns(rate).expect("a rate");
        let earlier = records(4, &earlier_frames(&columns, most));
        [file, stored(&earlier, listing::SETTING)]
    }

    #[test]
    fn the_transcript_is_written_as_before() {
        let portable = include_bytes!("../../../samples/transcript.pbm");
        let samples: [&[u8]; 3] = [
            include_bytes!("../../../samples/transcript-2400.page"),
            include_bytes!("../../../samples/transcript-4800.page"),
            include_bytes!("../../../samples/transcript-9600.page"),
        ];
        for (rate, sample) in RATES.into_iter().zip(samples) {
            let [file, earlier] = files_of_sample(portable, rate);
            assert!(file == sample && earlier == sample, "{rate}");
        }
    }

    #[test]
    fn the_form_is_written_otherwise_than_before() {
        let portable = include_bytes!("../../../samples/form.pbm");
        let check = HandedIn::of(listing::SETTING, true);
        let read = |file: &[u8]| read_page(file, check, usize::MAX);
        for rate in RATES {
            let [file, earlier] = files_of_sample(portable, rate);
            let page = read(&file).expect("a page");
            assert_eq!(page.bitmap, bitmap_of_sample(portable));
            assert!(page.falls_at_edge > 100, "{}", page.falls_at_edge);
            assert_ne!(file, earlier);
            assert!(read(&earlier).is_err());
            if rate == 4800 {
                assert!(file == include_bytes!("../../../samples/form.page"));
            }
        }
    }

    #[test]
    fn by_19_where_the_last_column_would_stay_open() {
        for solid in [WW, BB] {
            for mixed in [WB, BW] {
                let number = |runs: &[Run]| number(&bitmap_of(runs), 0, 2400, COMPARED, usize::MAX);
                assert_eq!(number(&[(solid, 1725), (mixed, 1)]), 19);
                assert_eq!(number(&[(mixed, 1725), (solid, 1)]), 0);
                assert_eq!(number(&[(solid, 1724), (mixed, 2)]), 0);
                assert_eq!(number(&[(solid, 1724), (WB, 1), (BW, 1)]), 0);
                assert_eq!(number(&[(solid, 1725), (mixed, 2), (solid, 1725)]), 0);
            }
        }
    }

    #[test]
    fn refusals_in_order() {
        let mut bitmap = bitmap_of(&[(WW, 1725), (WB, 1)]);
        bitmap[4 + 215] |= 0b01;
        bitmap[2] = 3;
        assert_eq!(number(&bitmap, 12, 1200, NOT_COMPARED, 0), 20);
        assert_eq!(number(&bitmap, 12, 1200, COMPARED, 0), 20);
        assert_eq!(number(&bitmap, 12, 2400, NOT_COMPARED, 0), 20);
        assert_eq!(number(&bitmap, 12, 2400, COMPARED, 0), 17);
        bitmap[2] = 2;
        assert_eq!(number(&bitmap, 12, 2400, COMPARED, 0), 18);
        bitmap[4 + 215] &= !0b01;
        assert_eq!(number(&bitmap, 12, 2400, COMPARED, 0), 6);
        assert_eq!(number(&bitmap, 10, 2400, COMPARED, 0), 19);
        let bitmap = bitmap_of(&[(WW, 1726)]);
        assert_eq!(number(&bitmap, 10, 2400, COMPARED, 229), 16);
        assert_eq!(number(&bitmap, 10, 2400, COMPARED, 230), 0);
    }

    #[test]
    fn by_20_and_by_6() {
        let bitmap = bitmap_of(&[(WW, 1726)]);
        for rate in [0, 1, 2399, 2401, 9601, 19200, 2400 + (1 << 32), u64::MAX] {
            assert_eq!(number(&bitmap, 0, rate, COMPARED, 230), 20);
        }
        let wrong = [
            HandedIn {
                generator: 424,
                ..COMPARED
            },
            HandedIn {
                start: 4096,
                ..COMPARED
            },
            HandedIn {
                first_bit: 12,
                ..COMPARED
            },
            HandedIn {
                compare: 2,
                ..COMPARED
            },
            HandedIn {
                order: 2,
                ..COMPARED
            },
            NOT_COMPARED,
        ];
        for check in wrong {
            assert_eq!(number(&bitmap, 0, 2400, check, 230), 20);
        }
        for settings in [3, 7, 11, 12, 13, 14, 15, 16, 20, 1 << 32, u64::MAX] {
            assert_eq!(number(&bitmap, settings, 2400, COMPARED, 230), 6);
        }
    }

    /// Whether a frame of so many bits and columns is closed.
    fn closes(bits: usize, columns: usize, most_columns: usize) -> bool {
        bits > 500 || columns > most_columns
    }

    #[test]
    fn random_frames_close_as_soon_as_they_must() {
        let mut random = Random::new(500);
        let mut longest = 0;
        for _ in 0..1000 {
            let columns = random::columns::columns(&mut random);
            let most = random.pick(&[9600, 4800, 2400]);
            let frames = image_frames(&columns, most);
            for (i, frame) in frames.iter().enumerate() {
                let mut before = frame.clone();
                let last = before.steps.pop().expect("no frame is empty");
                let closing = before.is_closed() && matches!(last.1, Step::Move(_));
                before
                    .steps
                    .truncate(before.steps.len() - usize::from(closing));
                assert!(!closes(before.bits().len(), before.columns(), most));
                let is_last = i + 1 == frames.len();
                assert!(is_last || closes(frame.bits().len(), frame.columns(), most));
                longest = longest.max(frame.bits().len());
            }
        }
        assert_eq!(longest, 508);
    }

    #[test]
    fn random_pages_read_back() {
        let mut random = Random::new(230);
        for _ in 0..1000 {
            let columns = random::columns::columns(&mut random);
            let bitmap = bitmap::written(&columns::page(&columns));
            let settings = random::file::settings(&mut random);
            let rate = random.pick(&RATES);
            let check = HandedIn::of(random::file::setting(&mut random), true);
            let file = write_page(&bitmap, settings, rate, check, usize::MAX).expect("a file");
            let page = read_page(&file, check, bitmap.len()).expect("a page");
            assert_eq!((page.bitmap, page.settings), (bitmap, settings));
            assert_eq!((page.columns, page.used), (columns.len(), file.len()));
        }
    }
}
