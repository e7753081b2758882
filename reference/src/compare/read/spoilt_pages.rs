//! Image frames that are no page.

use crate::file::write;
use crate::page::PELS;
use crate::part::steps::{Place, Reading, Step};
use crate::random::columns::{make_tellable, make_untellable};
use crate::random::file::{image_frames, split_frames};
use crate::random::{walk, Random};

/// Makes image frames of a page's columns.
type Spoil = fn(&mut Random, Vec<u8>) -> Vec<Reading>;

/// Each makes frames that are refused by the number.
const SPOILS: [(u64, Spoil); 8] = [
    (12, parted_closing_word),
    (12, frame_after_closing_word),
    (13, open_end),
    (13, open_end_of_a_page),
    (14, no_frames),
    (14, no_columns),
    (14, columns_missing),
    (14, columns_too_many),
];

pub fn spoilt(random: &mut Random, columns: Vec<u8>) -> Vec<Reading> {
    let (_, spoil) = random.pick(&SPOILS);
    spoil(random, columns)
}

fn parted_closing_word(random: &mut Random, columns: Vec<u8>) -> Vec<Reading> {
    let frames = split_frames(random, &columns);
    let (_, others) = frames.split_last().expect("a page has frames");
    if others.iter().any(Reading::is_closed) {
        frames
    } else {
        frame_after_closing_word(random, columns)
    }
}

fn frame_after_closing_word(random: &mut Random, mut columns: Vec<u8>) -> Vec<Reading> {
    *columns.last_mut().expect("a page has columns") = random.pick(&[0b00, 0b11]);
    let mut frames = write::image_frames(&columns, 2400);
    let last = frames.last().expect("a page has frames");
    let start = last.end().start();
    let mut more = walk(random, start, 60);
    if more.steps.is_empty() {
        more.steps.push((Place::of(start), Step::Closing(0)));
    }
    frames.push(more);
    frames
}

/// Ends anywhere in an open column.
fn open_end(random: &mut Random, mut columns: Vec<u8>) -> Vec<Reading> {
    columns.truncate(1 + random.below(columns.len() as u64) as usize);
    open_end_of_a_page(random, columns)
}

/// Ends in a column that is open and fills a row pair, if the page's would.
fn open_end_of_a_page(random: &mut Random, mut columns: Vec<u8>) -> Vec<Reading> {
    make_untellable(random, &mut columns);
    image_frames(random, &columns)
}

fn no_frames(_: &mut Random, _: Vec<u8>) -> Vec<Reading> {
    Vec::new()
}

/// A closing word of 0 and nothing else.
fn no_columns(random: &mut Random, _: Vec<u8>) -> Vec<Reading> {
    image_frames(random, &[])
}

fn columns_missing(random: &mut Random, mut columns: Vec<u8>) -> Vec<Reading> {
    let any = 1 + random.below(PELS as u64 - 2) as usize;
    columns.truncate(columns.len() - random.pick(&[1, 1, 2, any]));
    make_tellable(&mut columns);
    image_frames(random, &columns)
}

fn columns_too_many(random: &mut Random, mut columns: Vec<u8>) -> Vec<Reading> {
    let any = 1 + random.below(PELS as u64 - 1) as usize;
    let more = random.pick(&[1, 1, 2, any]);
    let pels = random.below(4) as u8;
    columns.resize(columns.len() + more, pels);
    make_tellable(&mut columns);
    image_frames(random, &columns)
}

#[cfg(test)]
mod tests {
    use super::*;
    use crate::file::read::read_page;
    use crate::file::stored;
    use crate::random;
    use crate::register::{HandedIn, Order, Setting};

    #[test]
    fn spoilt_pages_are_refused_by_their_number() {
        let mut random = Random::new(13);
        let setting = Setting {
            generator: 1,
            start: 0,
            first_bit: 0,
            order: Order::LowFirst,
        };
        let check = HandedIn::of(setting, true);
        for _ in 0..100 {
            let columns = random::columns::columns(&mut random);
            for (number, spoil) in SPOILS {
                let frames = spoil(&mut random, columns.clone());
                let records = random::file::records(&mut random, 0, &frames);
                let refusal =
                    read_page(&stored(&records, setting), check, usize::MAX).expect_err("no page");
                assert_eq!(refusal.number, number);
                if number > 12 {
                    assert_eq!(refusal.record, records.len() as u64 - 1);
                }
            }
        }
    }
}
