//! Random pages by their columns.

use super::{page, Random};
use crate::file::write::can_be_told;
use crate::page::{columns, LINES, PELS};
use crate::part::State;

pub const SOLID: [State; 2] = [State::WW, State::BB];
const MIXED: [State; 2] = [State::WB, State::BW];

/// What makes another state of a solid one.
const OTHER: [u8; 3] = [0b01, 0b10, 0b11];

/// The columns of a page that a file can tell, mostly of few lines.
pub fn columns(random: &mut Random) -> Vec<u8> {
    let lines = match random.below(64) {
        0 => 14 + 2 * random.below(24) as usize,
        1..=10 => random.pick(&[6, 8, 10, 12]),
        11..=26 => 4,
        _ => 2,
    };
    let mut columns = match random.below(32) {
        0 => full_words(random, lines / 2 * PELS),
        1..=3 => word_runs(random, lines / 2 * PELS),
        4..=10 => bars(random, (lines / 2 + 1) * PELS),
        11..=20 => columns::of(&page::of_lines(random, lines)),
        _ => runs(random, lines / 2 * PELS),
    };
    if random.chance(2) {
        end_runs_about_edges(random, &mut columns);
    }
    make_tellable(&mut columns);
    columns
}

/// A page with nearly the most lines, or with more.
pub fn many_columns(random: &mut Random) -> Vec<u8> {
    let lines = match random.below(256) {
        // So many that two octets say 2.
        0 => 65538,
        1..=31 => LINES - 2,
        32..=63 => LINES,
        64..=95 => LINES + 2 + 2 * random.below(200) as usize,
        // So many that the low octet says as many as in the most.
        96..=103 => LINES + 256,
        _ => LINES + 2,
    };
    let mut columns = few_runs(random, lines);
    make_tellable(&mut columns);
    columns
}

/// So many lines, nearly all of one colour.
pub fn few_runs(random: &mut Random, lines: usize) -> Vec<u8> {
    let mut columns = vec![random.pick(&[0b00, 0b00, 0b00, 0b11]); lines / 2 * PELS];
    for _ in 0..random.below(20) {
        let at = random.below(columns.len() as u64 - 60) as usize;
        let number = 1 + random.below(60) as usize;
        columns[at..at + number].copy_from_slice(&runs(random, number));
    }
    columns
}

/// Changes a last column that would stay open.
pub fn make_tellable(columns: &mut [u8]) {
    if !can_be_told(columns) {
        let last = columns.len() - 1;
        columns[last] = columns[last - 1];
    }
}

/// Makes a last column that would stay open.
pub fn make_untellable(random: &mut Random, columns: &mut [u8]) {
    let last = columns.len() - 1;
    columns[last] = random.pick(&MIXED).pels();
    if last > 0 {
        columns[last - 1] = random.pick(&SOLID).pels();
    }
}

/// Ends some of the runs at the right edge, or a column before or after it, each
/// about as long as words of ones only.
fn end_runs_about_edges(random: &mut Random, columns: &mut [u8]) {
    for edge in (PELS..=columns.len()).step_by(PELS) {
        if random.chance(10) {
            let state = random.pick(&SOLID).pels();
            let run = word_run(random);
            let end = columns.len().min(about(random, edge));
            columns[end.saturating_sub(run)..end].fill(state);
            match columns.get_mut(end) {
                Some(next) if *next == state => *next ^= random.pick(&OTHER),
                _ => {}
            }
        }
    }
}

/// The number, or one less or more.
fn about(random: &mut Random, number: usize) -> usize {
    random.pick(&[number.saturating_sub(1), number, number, number + 1])
}

/// A solid page with bars from its top to its bottom, of which one is at the left
/// edge: the run before that ends at the right edge, or a column before or after
/// it, and is often about as long as words of ones only.
fn bars(random: &mut Random, number: usize) -> Vec<u8> {
    let own = random.pick(&SOLID).pels();
    let mut columns = vec![own; number];
    let more_bars = random.below(3);
    for edge in (0..number).step_by(PELS) {
        let mut first = about(random, edge);
        for _ in 0..=more_bars {
            let most = random.pick(&[1, 4, 40]);
            let end = first + 1 + random.below(most) as usize;
            columns[first..number.min(end)].fill(own ^ random.pick(&OTHER));
            let left = match random.below(2) {
                0 => random.below(PELS as u64) as usize,
                _ => word_run(random),
            };
            first = edge + PELS - 1 - left.min(PELS - 1);
        }
    }
    columns
}

/// A last run that words of ones only fill.
fn full_words(random: &mut Random, number: usize) -> Vec<u8> {
    // The white length is 6 after a page's first word of 0.
    let black = 1;
    let white = 1 + 63;
    let [first, last, least] = random.pick(&[
        [0b00, 0b11, black],
        [0b01, 0b11, black],
        [0b10, 0b00, white],
        [0b11, 0b00, white],
    ]);
    let run = usize::from(least) + 127 * random.below(12) as usize;
    let mut columns = vec![first; number];
    columns[number - run..].fill(last);
    columns
}

/// Runs of columns of a state, none longer than some number.
pub fn runs(random: &mut Random, number: usize) -> Vec<u8> {
    let longest = random.pick(&[1, 3, 12, 70, 300, 4000]);
    let solid = random.pick(&[2, 8, 12, 16]);
    let mut columns = Vec::new();
    while columns.len() < number {
        let state = if random.chance(solid) {
            random.pick(&SOLID)
        } else {
            random.pick(&MIXED)
        };
        let run = 1 + random.below(longest) as usize;
        columns.resize(number.min(columns.len() + run), state.pels());
    }
    columns
}

/// Solid runs about as long as words of ones only, and mixed columns between.
fn word_runs(random: &mut Random, number: usize) -> Vec<u8> {
    let mixed = 1 + random.below(3);
    let mut columns = Vec::new();
    for solid in SOLID.into_iter().cycle() {
        let run = word_run(random);
        columns.resize(columns.len() + run, solid.pels());
        let between = random.below(mixed) as usize;
        columns.resize(columns.len() + between, random.pick(&MIXED).pels());
        if columns.len() >= number {
            break;
        }
    }
    columns.truncate(number);
    columns
}

/// About as many columns as words of ones only lay, the first of some length.
fn word_run(random: &mut Random) -> usize {
    let first = random.pick(&[2, 4, 6, 7, 7, 7]);
    let most = random.pick(&[2, 2, 4, 14]);
    let words = 1 + random.below(most) as usize;
    let laid: usize = (first..first + words).map(|n| (1 << n.min(7)) - 1).sum();
    laid + random.below(4) as usize - 1
}

#[cfg(test)]
mod tests {
    use super::*;

    #[test]
    fn pages_fill_row_pairs_and_can_be_told() {
        let mut random = Random::new(1726);
        for i in 0..500 {
            let columns = match i % 50 {
                0 => many_columns(&mut random),
                _ => columns(&mut random),
            };
            assert!(!columns.is_empty() && columns.len().is_multiple_of(PELS));
            assert!(can_be_told(&columns));
        }
    }

    #[test]
    fn a_last_column_is_made_open() {
        let mut random = Random::new(19);
        for _ in 0..200 {
            let mut columns = columns(&mut random);
            make_untellable(&mut random, &mut columns);
            assert!(!can_be_told(&columns));
        }
    }

    #[test]
    fn runs_are_as_long_as_words_of_ones() {
        let mut random = Random::new(127);
        let runs: Vec<usize> = (0..2000).map(|_| word_run(&mut random)).collect();
        for run in [2, 3, 4, 5, 126, 127, 128, 253, 254, 255, 381] {
            assert!(runs.contains(&run), "{run}");
        }
    }

    /// How often of 200 times a run ends at column 1724, 1725 or 0 of the first
    /// row pair or the next.
    fn ended(mut make: impl FnMut() -> Vec<u8>) -> [usize; 3] {
        let mut ended = [0; 3];
        for _ in 0..200 {
            let columns = make();
            for (times, last) in ended.iter_mut().zip(PELS - 2..) {
                *times += usize::from(columns[last] != columns[last + 1]);
            }
        }
        ended
    }

    #[test]
    fn runs_end_about_the_right_edge() {
        let mut random = Random::new(1725);
        let white = ended(|| {
            let mut columns = vec![0b00; 3 * PELS];
            end_runs_about_edges(&mut random, &mut columns);
            columns
        });
        let [before, at, after] = white;
        assert!(before > 20 && at > 40 && after > 20, "{white:?}");
        let bars = ended(|| bars(&mut random, 3 * PELS));
        let [before, at, after] = bars;
        assert!(before > 30 && at > 60 && after > 30, "{bars:?}");
    }

    #[test]
    fn every_state_follows_every_other() {
        let mut random = Random::new(4);
        let mut followed = [[0; 4]; 4];
        for _ in 0..200 {
            for pair in columns(&mut random).windows(2) {
                followed[usize::from(pair[0])][usize::from(pair[1])] += 1;
            }
        }
        assert!(followed.iter().flatten().all(|times| *times > 100));
    }
}
