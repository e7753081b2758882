//! Random pages, many of them on the edges of the rules for writing.

use crate::file::write::image_frames;
use crate::page::{columns, LINES, PELS};
use crate::part::State;
use crate::random::columns::{few_runs, make_tellable, runs, SOLID};
use crate::random::{self, Random};

/// The columns of a page that a file can tell. A frame with more columns than
/// `most` will be closed.
pub fn columns(random: &mut Random, most: usize) -> Vec<u8> {
    let mut columns = match random.below(16) {
        0..=1 => turn_at_most(random, most),
        2..=3 => end_with_frame(random, most),
        _ => return random::columns::columns(random),
    };
    make_tellable(&mut columns);
    columns
}

/// The same with the most lines, or nearly.
pub fn many_columns(random: &mut Random) -> Vec<u8> {
    let lines = random.pick(&[LINES, LINES, LINES, LINES - 2]);
    let mut columns = match random.below(16) {
        // Seldom, as many runs take still longer.
        0 => columns::of(&random::page::of_lines(random, lines)),
        _ => few_runs(random, lines),
    };
    make_tellable(&mut columns);
    columns
}

/// Long runs, of which one ends where the first frame has about the most
/// columns.
fn turn_at_most(random: &mut Random, most: usize) -> Vec<u8> {
    let longest = random.pick(&[300, 1500, 10_000]);
    let mut columns = Vec::new();
    while columns.len() < most {
        let run = 1 + random.below(longest) as usize;
        columns.resize(columns.len() + run, random.pick(&SOLID).pels());
    }
    columns.resize(most - 2 + random.below(4) as usize, State::WW.pels());
    let last = columns[columns.len() - 1];
    let turned = random.pick(&[0b01, 0b10, 0b11]);
    let more = 1 + random.below(4) as usize;
    columns.resize(columns.len() + more, last ^ turned);
    let missing = PELS - columns.len() % PELS;
    columns.extend(runs(random, missing));
    columns
}

/// Runs, and before them a frame of as many columns as makes a later frame's
/// end the page's, if there is such a number.
fn end_with_frame(random: &mut Random, most: usize) -> Vec<u8> {
    let number = PELS * random.pick(&[2, 8]);
    let runs = runs(random, number);
    let frames = image_frames(&[first_frame(MOST_OF_FIRST), runs.clone()].concat(), most);
    let mut end = 0;
    for frame in &frames[1..] {
        end += frame.columns();
        let missing = PELS - end % PELS;
        if (LEAST_OF_FIRST..=MOST_OF_FIRST).contains(&missing) && !frame.is_open() {
            return [&first_frame(missing), &runs[..end]].concat();
        }
    }
    runs
}

/// The least and the most columns of [`first_frame`].
const LEAST_OF_FIRST: usize = 166;
const MOST_OF_FIRST: usize = 494;

/// So many mixed columns, the last of them BW, that fill a page's first frame.
/// The first has eight bits. Each other has one, or three where it differs from
/// the one before.
fn first_frame(number: usize) -> Vec<u8> {
    let differ = (MOST_OF_FIRST - number).div_ceil(2);
    let state = |from_end: usize| match from_end.min(differ) % 2 {
        0 => State::BW,
        _ => State::WB,
    };
    (0..number).rev().map(|i| state(i).pels()).collect()
}

#[cfg(test)]
mod tests {
    use super::*;
    use crate::file::write::{can_be_told, MOST_BITS};

    #[test]
    fn pages_fill_row_pairs_and_can_be_told() {
        let mut random = Random::new(9600);
        for i in 0..500 {
            let columns = match i % 100 {
                0 => many_columns(&mut random),
                _ => columns(&mut random, 2400),
            };
            assert!(!columns.is_empty() && columns.len().is_multiple_of(PELS));
            assert!(can_be_told(&columns));
        }
    }

    #[test]
    fn first_frames_are_full_and_no_more() {
        for number in LEAST_OF_FIRST..=MOST_OF_FIRST {
            let more = [first_frame(number), vec![State::BW.pels(); 600]].concat();
            let frames = image_frames(&more, 2400);
            assert_eq!(frames[0].columns(), number);
            assert_eq!(frames[1].columns(), MOST_BITS + 1);
            assert_eq!(frames[1].start.state, State::BW);
        }
    }

    #[test]
    fn many_pages_end_with_a_frame() {
        let mut random = Random::new(501);
        let mut full = 0;
        let mut closing_word_alone = 0;
        for _ in 0..1000 {
            let columns = end_with_frame(&mut random, 4800);
            let frames = image_frames(&columns, 4800);
            let bits = frames[frames.len() - 1].bits().len();
            full += usize::from(bits > MOST_BITS);
            closing_word_alone += usize::from(bits <= 7);
        }
        assert!(full > 100 && closing_word_alone > 100);
    }
}
