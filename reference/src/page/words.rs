//! The run words of a page: of each line its runs and a 0, and a 0 at the end.

use super::{is_number_of_lines, Line, Page, PELS};
use crate::refusal::Refusal;

/// The runs of an all-white line, which would have none without its trailing
/// white.
const ALL_WHITE: [i16; 1] = [1];

/// The page, and how many words make it.
pub fn read(words: &[i16]) -> Result<(Page, usize), Refusal> {
    let (page, used) = page(words).ok_or(Refusal::of_no_record(22))?;
    if !is_number_of_lines(page.len()) {
        return Err(Refusal::of_no_record(17));
    }
    Ok((page, used))
}

pub fn written(page: &[Line]) -> Vec<i16> {
    let mut words = Vec::new();
    for line in page {
        words.extend(runs(line));
        words.push(0);
    }
    words.push(0);
    words
}

/// The lines up to the first that has no words, however many there are.
fn page(words: &[i16]) -> Option<(Page, usize)> {
    let mut page = Vec::new();
    let mut used = 0;
    loop {
        let rest = &words[used..];
        let runs = rest.iter().position(|word| *word == 0)?;
        used += runs + 1;
        if runs == 0 {
            return Some((page, used));
        }
        page.push(line(&rest[..runs])?);
    }
}

/// The pels that a line's runs say, if they keep to the rule. None is 0.
fn line(runs: &[i16]) -> Option<Line> {
    let mut pels = [false; PELS];
    if runs == ALL_WHITE {
        return Some(pels);
    }
    let ends_in_black = runs.last().is_some_and(|run| *run < 0);
    let alternate = runs.windows(2).all(|two| (two[0] < 0) != (two[1] < 0));
    if !ends_in_black || !alternate {
        return None;
    }
    let mut x = 0;
    for run in runs {
        let end = x + usize::from(run.unsigned_abs());
        pels.get_mut(x..end)?.fill(*run < 0);
        x = end;
    }
    Some(pels)
}

/// The runs of a line, without trailing white.
pub fn runs(line: &Line) -> Vec<i16> {
    let Some(last) = line.iter().rposition(|pel| *pel) else {
        return ALL_WHITE.to_vec();
    };
    line[..=last]
        .chunk_by(|one, next| one == next)
        .map(|run| if run[0] { -1 } else { 1 } * run.len() as i16)
        .collect()
}

#[cfg(test)]
mod tests {
    use super::*;

    fn number(words: &[i16]) -> u64 {
        read(words).map_or_else(Refusal::returned, |_| 0)
    }

    /// What comes of a page of two lines, of which these are one.
    fn number_with_line(runs: &[i16]) -> u64 {
        let upper = number(&[runs, &[0, 1, 0, 0]].concat());
        let lower = number(&[&[1, 0], runs, &[0, 0]].concat());
        assert_eq!(upper, lower);
        upper
    }

    #[test]
    fn a_line_ends_in_black() {
        for wrong in [&[5][..], &[-3, 2], &[2], &[1725], &[1726], &[1, -5, 1]] {
            assert_eq!(number_with_line(wrong), 22);
        }
    }

    #[test]
    fn either_colour_may_come_first() {
        for right in [&[1][..], &[-1], &[-1726], &[1, -5], &[5, -1], &[-3, 2, -1]] {
            assert_eq!(number_with_line(right), 0);
        }
    }

    #[test]
    fn colours_alternate() {
        for wrong in [&[1, 1][..], &[-1, -1], &[1, 1, -5], &[1, -2, -3]] {
            assert_eq!(number_with_line(wrong), 22);
        }
    }

    #[test]
    fn a_line_has_1726_pels_at_most() {
        for right in [&[1725, -1][..], &[1, -1725], &[-1, 1724, -1]] {
            assert_eq!(number_with_line(right), 0);
        }
        for wrong in [&[1726, -1][..], &[1, -1726], &[-1727], &[-1, 1725, -1]] {
            assert_eq!(number_with_line(wrong), 22);
        }
    }

    #[test]
    fn sizes_are_numbers_and_never_wrap() {
        for wrong in [
            &[-32768][..],
            &[32767],
            &[1, -32768],
            &[32767, -1],
            &[-32768, 32767, -5],
            &[32767, -32767, 2, -5],
        ] {
            assert_eq!(number_with_line(wrong), 22);
        }
    }

    #[test]
    fn the_page_ends_with_a_0_of_its_own() {
        for wrong in [&[][..], &[1], &[1, 0], &[1, 0, 1, 0], &[1, 0, 1], &[-5]] {
            assert_eq!(number(wrong), 22);
        }
        assert_eq!(number(&[1, 0, 1, 0, 0]), 0);
    }

    #[test]
    fn words_after_the_page_are_not_read() {
        let white = vec![[false; PELS]; 2];
        for after in [&[][..], &[0], &[5, 0], &[1, 0, 0], &[-32768, -1]] {
            let words = [&[1, 0, 1, 0, 0], after].concat();
            assert_eq!(read(&words), Ok((white.clone(), 5)));
        }
    }

    #[test]
    fn lines_are_even_and_2_to_6000() {
        assert_eq!(number(&[0]), 17);
        assert_eq!(number(&[0, 1, 0, 1, 0, 0]), 17);
        for lines in [1, 3, 5999, 6001, 6002, 8000] {
            assert_eq!(number(&[[1, 0].repeat(lines), vec![0]].concat()), 17);
        }
        for lines in [2, 4, 5998, 6000] {
            assert_eq!(number(&[[1, 0].repeat(lines), vec![0]].concat()), 0);
        }
    }

    #[test]
    fn the_rule_is_judged_before_the_lines() {
        assert_eq!(number(&[5, 0, 0]), 22);
        assert_eq!(number(&[1, 0, 1, 0, 5, 0, 0]), 22);
        let too_many = [1, 0].repeat(6002);
        assert_eq!(number(&too_many), 22);
        assert_eq!(number(&[&too_many[..], &[2, 0, 0]].concat()), 22);
    }

    #[test]
    fn only_what_we_write_is_accepted() {
        let words = [1, 2, 1724, 1725, 1726, 1727].map(|size| [-size, size]);
        let words: Vec<i16> = words.concat();
        let mut lines: Vec<Vec<i16>> = vec![vec![]];
        for accepted in [6, 10, 11] {
            lines = lines
                .iter()
                .flat_map(|line| words.iter().map(|word| [&line[..], &[*word]].concat()))
                .collect();
            let read: Vec<_> = lines.iter().filter(|runs| line(runs).is_some()).collect();
            assert_eq!(read.len(), accepted);
            assert!(read
                .iter()
                .all(|own| line(own).map(|pels| runs(&pels)).as_ref() == Some(*own)));
        }
    }
}
