//! Random pages.

use super::Random;
use crate::page::{Line, Page, LINES, PELS};

#[derive(Clone, Copy)]
enum Kind {
    White,
    Black,
    Noise,
    Text,
    LongRuns,
    /// Stripes of one width, of which the last ends at the right edge.
    Stripes,
    LeftPel,
    RightPel,
    /// A first white run of 1, as an all-white line has.
    OneWhite,
}

const KINDS: [Kind; 9] = [
    Kind::White,
    Kind::Black,
    Kind::Noise,
    Kind::Text,
    Kind::LongRuns,
    Kind::Stripes,
    Kind::LeftPel,
    Kind::RightPel,
    Kind::OneWhite,
];

/// A page, mostly of few lines, whose lines are all of one kind or of many.
pub fn page(random: &mut Random) -> Page {
    let lines = number_of_lines(random);
    of_lines(random, lines)
}

/// A page of so many lines.
pub fn of_lines(random: &mut Random, lines: usize) -> Page {
    let kinds = match random.below(2) {
        0 => vec![random.pick(&KINDS)],
        _ => KINDS.to_vec(),
    };
    (0..lines)
        .map(|_| {
            let kind = random.pick(&kinds);
            line(random, kind)
        })
        .collect()
}

fn number_of_lines(random: &mut Random) -> usize {
    match random.below(2048) {
        0 => random.pick(&[LINES, LINES - 2]),
        1..=4 => random.pick(&[200, 254, 256, 258]),
        _ => random.pick(&[2, 4, 6, 8]),
    }
}

fn line(random: &mut Random, kind: Kind) -> Line {
    let mut line = [false; PELS];
    match kind {
        Kind::White => {}
        Kind::Black => line.fill(true),
        Kind::Noise => {
            let black = random.pick(&[1, 8, 15]);
            line.fill_with(|| random.chance(black));
        }
        Kind::Text => fill_with_runs(random, &mut line, 60, 9),
        Kind::LongRuns => fill_with_runs(random, &mut line, PELS as u64, PELS as u64),
        Kind::Stripes => {
            let width = random.pick(&[1, 1, 2, 3, 7, 8, 16, 863, 1725]);
            for (i, pel) in line.iter_mut().rev().enumerate() {
                *pel = (i / width).is_multiple_of(2);
            }
        }
        Kind::LeftPel => line[0] = true,
        Kind::RightPel => line[PELS - 1] = true,
        Kind::OneWhite => {
            fill_with_runs(random, &mut line, 60, 60);
            line[0] = false;
            line[1] = true;
            if random.chance(8) {
                line[2..].fill(false);
            }
        }
    }
    line
}

/// Runs of either colour, no longer than `white` and `black`.
fn fill_with_runs(random: &mut Random, line: &mut Line, white: u64, black: u64) {
    let mut colour = random.chance(8);
    let mut x = 0;
    while x < PELS {
        let most = if colour { black } else { white };
        let end = PELS.min(x + 1 + random.below(most) as usize);
        line[x..end].fill(colour);
        x = end;
        colour = !colour;
    }
}

#[cfg(test)]
mod tests {
    use super::*;
    use crate::page::words::runs;

    #[test]
    fn pages_have_many_numbers_of_lines() {
        let mut random = Random::new(6000);
        let numbers: Vec<usize> = (0..100_000).map(|_| number_of_lines(&mut random)).collect();
        for lines in [2, 4, 6, 8, 200, 256, LINES - 2, LINES] {
            assert!(numbers.contains(&lines), "{lines}");
        }
    }

    #[test]
    fn lines_stand_on_the_edges_of_the_rules() {
        let mut random = Random::new(1726);
        let pages: Vec<Page> = (0..500).map(|_| page(&mut random)).collect();
        let lines: Vec<Vec<i16>> = pages.iter().flatten().map(runs).collect();
        for edge in [&[1][..], &[-1726], &[-1], &[1725, -1], &[1, -1]] {
            assert!(lines.iter().any(|runs| runs == edge), "{edge:?}");
        }
        assert!(lines.iter().any(|runs| runs.len() == PELS));
        assert!(lines.iter().any(|runs| runs[0] == 1 && runs.len() > 2));
    }
}
