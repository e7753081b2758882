//! Run words that are refused, or are on the edge of it.

// All that spoil in one way have one type, whether they change the length or not.
#![allow(clippy::ptr_arg)]

use crate::page::{LINES, PELS};
use crate::random::Random;

const WIDTH: i16 = PELS as i16;

/// The runs of an all-white line.
const WHITE: [i16; 1] = [1];

/// Each makes of a legal line's runs some that are refused by 22.
const RUNS: [fn(&mut Random, &mut Vec<i16>); 7] = [
    one_colour_twice,
    early_zero,
    white_line,
    trailing_white,
    too_many_pels,
    wrapping_sizes,
    largest_size,
];

/// Each makes of a page's words any, legal or not.
const CHANGES: [fn(&mut Random, &mut Vec<i16>); 4] = [change, put_in, take_out, exchange];

/// The words of a page whose lines have these runs.
fn joined(lines: &[Vec<i16>]) -> Vec<i16> {
    let mut words = Vec::new();
    for runs in lines {
        words.extend(runs);
        words.push(0);
    }
    words.push(0);
    words
}

/// Sometimes puts words after the page's end.
fn continue_past_end(random: &mut Random, words: &mut Vec<i16>) {
    if random.chance(4) {
        for _ in 0..=random.below(8) {
            words.push(any(random));
        }
    }
}

pub fn legal(random: &mut Random, lines: Vec<Vec<i16>>) -> Vec<i16> {
    let mut words = joined(&lines);
    continue_past_end(random, &mut words);
    words
}

pub fn spoilt(random: &mut Random, mut lines: Vec<Vec<i16>>) -> Vec<i16> {
    let kind = random.below(8);
    if kind <= 2 {
        spoil_number_of_lines(random, &mut lines);
    }
    if (2..=4).contains(&kind) {
        spoil_line(random, &mut lines);
    }
    let mut words = joined(&lines);
    if kind == 5 {
        cut(random, &mut words);
        return words;
    }
    if kind >= 6 {
        for _ in 0..=random.below(2) {
            random.pick(&CHANGES)(random, &mut words);
        }
    }
    continue_past_end(random, &mut words);
    words
}

fn spoil_number_of_lines(random: &mut Random, lines: &mut Vec<Vec<i16>>) {
    match random.below(24) {
        // Seldom, as so many take long.
        0 => too_many_lines(random, lines),
        1..=7 => lines.clear(),
        _ => odd_lines(random, lines),
    }
}

/// Spoils the runs of one line, often the last, if there is any.
fn spoil_line(random: &mut Random, lines: &mut [Vec<i16>]) {
    let number = lines.len() as u64;
    if number > 0 {
        let at = random.below(2 * number).min(number - 1) as usize;
        random.pick(&RUNS)(random, &mut lines[at]);
    }
}

/// Takes away the last word, or more.
fn cut(random: &mut Random, words: &mut Vec<i16>) {
    let left = match random.below(2) {
        0 => words.len() - 1,
        _ => random.below(words.len() as u64) as usize,
    };
    words.truncate(left);
}

fn one_colour_twice(random: &mut Random, runs: &mut Vec<i16>) {
    let at = place(random, runs);
    let (colour, size) = (runs[at].signum(), runs[at].abs());
    if size > 1 {
        let first = 1 + below(random, size - 1);
        runs[at] = colour * (size - first);
        runs.insert(at, colour * first);
    } else {
        runs.insert(at, colour);
    }
}

/// Ends the line after a white run, other than a first one of 1.
fn early_zero(random: &mut Random, runs: &mut Vec<i16>) {
    let ends = |at: &usize| runs[*at] > 0 && (*at > 0 || runs[0] > 1);
    let ends: Vec<usize> = (0..runs.len()).filter(ends).collect();
    if ends.is_empty() {
        *runs = vec![5, 0, -3];
    } else {
        runs.insert(1 + random.pick(&ends), 0);
    }
}

fn white_line(random: &mut Random, runs: &mut Vec<i16>) {
    let any = 2 + below(random, WIDTH - 1);
    *runs = vec![random.pick(&[2, WIDTH, any])];
}

fn trailing_white(random: &mut Random, runs: &mut Vec<i16>) {
    if *runs == WHITE {
        *runs = vec![-1];
    }
    let left = (WIDTH - total(runs)).max(1);
    let any = 1 + below(random, left);
    runs.push(random.pick(&[1, left, any]));
}

/// Makes the total 1727 or more.
fn too_many_pels(random: &mut Random, runs: &mut Vec<i16>) {
    if *runs == WHITE {
        runs.push(-1);
    }
    let any = below(random, 20_000);
    let more = WIDTH + 1 - total(runs) + random.pick(&[0, 0, 1, any]);
    let at = place(random, runs);
    runs[at] += runs[at].signum() * more;
}

/// Puts two runs in front whose sizes come to nearly 2^16.
fn wrapping_sizes(random: &mut Random, runs: &mut Vec<i16>) {
    if *runs == WHITE {
        runs.push(-1);
    }
    let black = random.pick(&[-32768, -32767]);
    let front = if runs[0] < 0 {
        [black, 32767]
    } else {
        [32767, black]
    };
    runs.splice(..0, front);
}

fn largest_size(random: &mut Random, runs: &mut Vec<i16>) {
    let at = place(random, runs);
    runs[at] = if runs[at] > 0 && random.chance(12) {
        32767
    } else {
        random.pick(&[-32768, -32767])
    };
}

fn odd_lines(random: &mut Random, lines: &mut Vec<Vec<i16>>) {
    let at = random.below(lines.len() as u64) as usize;
    match random.below(3) {
        0 => lines.insert(at, WHITE.to_vec()),
        1 => lines.insert(at, lines[at].clone()),
        _ => drop(lines.remove(at)),
    }
}

fn too_many_lines(random: &mut Random, lines: &mut Vec<Vec<i16>>) {
    lines.resize(LINES + random.pick(&[1, 2, 2, 4]), WHITE.to_vec());
}

fn change(random: &mut Random, words: &mut Vec<i16>) {
    let at = place(random, words);
    let other = any(random);
    let word = words[at];
    words[at] = random.pick(&[
        word.wrapping_neg(),
        word.wrapping_add(1),
        word.wrapping_sub(1),
        other,
    ]);
}

fn put_in(random: &mut Random, words: &mut Vec<i16>) {
    let at = place(random, words);
    let other = any(random);
    words.insert(at, random.pick(&[0, other]));
}

fn take_out(random: &mut Random, words: &mut Vec<i16>) {
    let at = place(random, words);
    words.remove(at);
}

fn exchange(random: &mut Random, words: &mut Vec<i16>) {
    let (one, other) = (place(random, words), place(random, words));
    words.swap(one, other);
}

/// Any word, and often one of those that rules speak of.
fn any(random: &mut Random) -> i16 {
    let any = random.number() as i16;
    let colour = random.pick(&[-1, 1]);
    let size = random.pick(&[0, 1, 1, 2, 5, WIDTH, WIDTH + 1, 32767]);
    random.pick(&[any, colour * size, colour * size, -32768])
}

fn total(runs: &[i16]) -> i16 {
    runs.iter().map(|run| run.abs()).sum()
}

fn place(random: &mut Random, words: &[i16]) -> usize {
    random.below(words.len() as u64) as usize
}

fn below(random: &mut Random, limit: i16) -> i16 {
    random.below(limit as u64) as i16
}

#[cfg(test)]
mod tests {
    use super::*;
    use crate::page::words::{read, runs};
    use crate::random;
    use crate::refusal::Refusal;

    fn number(words: &[i16]) -> u64 {
        read(words).map_or_else(Refusal::returned, |_| 0)
    }

    /// Each of some random pages by the runs of its lines.
    fn pages() -> impl Iterator<Item = (Random, Vec<Vec<i16>>)> {
        (0..500).map(|seed| {
            let mut random = Random::new(seed);
            let page = random::page::page(&mut random);
            (random, page.iter().map(runs).collect())
        })
    }

    #[test]
    fn spoilt_lines_are_refused_by_22() {
        for spoil in RUNS {
            for (mut random, mut lines) in pages() {
                let at = random.below(lines.len() as u64) as usize;
                spoil(&mut random, &mut lines[at]);
                assert_eq!(number(&joined(&lines)), 22, "{:?}", lines[at]);
            }
        }
    }

    #[test]
    fn other_numbers_of_lines_are_refused_by_17() {
        let mut too_many = 0;
        for (mut random, mut lines) in pages() {
            spoil_number_of_lines(&mut random, &mut lines);
            assert_eq!(number(&joined(&lines)), 17);
            too_many += usize::from(lines.len() == LINES + 2);
        }
        assert_ne!(too_many, 0);
    }

    #[test]
    fn cut_words_are_refused_by_22() {
        for (mut random, lines) in pages() {
            let mut words = joined(&lines);
            cut(&mut random, &mut words);
            assert_eq!(number(&words), 22);
        }
    }

    #[test]
    fn words_past_the_end_change_nothing() {
        for (mut random, lines) in pages() {
            let words = joined(&lines);
            let mut more = words.clone();
            continue_past_end(&mut random, &mut more);
            assert_eq!(read(&more), read(&words));
        }
    }

    #[test]
    fn changes_are_refused_or_not() {
        let mut numbers = [0; 23];
        for change in CHANGES {
            for (mut random, lines) in pages() {
                let mut words = joined(&lines);
                change(&mut random, &mut words);
                numbers[number(&words) as usize] += 1;
            }
        }
        assert!([0, 17, 22].iter().all(|n| numbers[*n] > 10), "{numbers:?}");
    }
}
