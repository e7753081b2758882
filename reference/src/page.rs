//! A page of pels, the two forms that it is lent in, [`bitmap`] and [`words`],
//! and the one that frames tell, [`columns`].

pub mod bitmap;
pub mod columns;
pub mod words;

use crate::refusal::Refusal;

/// The pels of a line.
pub const PELS: usize = 1726;

/// The most lines of a page.
pub const LINES: usize = 6000;

/// The pels of a line from the left, the black ones true.
pub type Line = [bool; PELS];

/// The lines of a page from the top, as many as [`is_number_of_lines`] allows.
pub type Page = Vec<Line>;

pub fn is_number_of_lines(lines: usize) -> bool {
    lines.is_multiple_of(2) && (2..=LINES).contains(&lines)
}

/// The run words of a bitmap.
pub fn words_of_bitmap(bitmap: &[u8], room: usize) -> Result<Vec<i16>, Refusal> {
    let page = bitmap::read(bitmap)?;
    fitting(words::written(&page), room)
}

/// The bitmap of run words, and how many words make the page.
pub fn bitmap_of_words(words: &[i16], room: usize) -> Result<(Vec<u8>, usize), Refusal> {
    let (page, used) = words::read(words)?;
    let bitmap = fitting(bitmap::written(&page), room)?;
    Ok((bitmap, used))
}

/// The items, unless they have no room.
pub fn fitting<T>(items: Vec<T>, room: usize) -> Result<Vec<T>, Refusal> {
    if items.len() > room {
        return Err(Refusal::of_no_record(16));
    }
    Ok(items)
}

#[cfg(test)]
mod tests {
    use super::*;
    use crate::random::{self, Random};

    /// A bitmap of two lines, made by hand: all white but for these octets of
    /// the upper line.
    fn two_lines(upper: &[(usize, u8)]) -> Vec<u8> {
        let mut octets = vec![0; 4 + 2 * 216];
        octets[..4].copy_from_slice(&[190, 6, 2, 0]);
        for (i, octet) in upper {
            octets[4 + i] = *octet;
        }
        octets
    }

    fn words_of(bitmap: &[u8]) -> Result<Vec<i16>, u64> {
        words_of_bitmap(bitmap, usize::MAX).map_err(Refusal::returned)
    }

    fn bitmap_of(words: &[i16]) -> Result<(Vec<u8>, usize), u64> {
        bitmap_of_words(words, usize::MAX).map_err(Refusal::returned)
    }

    /// The bitmap and these words are the same page, either way.
    fn assert_same(bitmap: &[u8], words: &[i16]) {
        assert_eq!(words_of(bitmap), Ok(words.to_vec()));
        assert_eq!(bitmap_of(words), Ok((bitmap.to_vec(), words.len())));
    }

    #[test]
    fn an_all_white_line_is_1_0() {
        assert_same(&two_lines(&[]), &[1, 0, 1, 0, 0]);
    }

    #[test]
    fn an_all_black_line_is_one_run() {
        let mut upper: Vec<_> = (0..216).map(|i| (i, 0xFF)).collect();
        upper[215].1 = 0xFC;
        assert_same(&two_lines(&upper), &[-1726, 0, 1, 0, 0]);
    }

    #[test]
    fn the_leftmost_pel_is_the_high_bit() {
        assert_same(&two_lines(&[(0, 0x80)]), &[-1, 0, 1, 0, 0]);
        assert_same(&two_lines(&[(0, 0x40)]), &[1, -1, 0, 1, 0, 0]);
        assert_same(&two_lines(&[(0, 0x7C)]), &[1, -5, 0, 1, 0, 0]);
        assert_same(
            &two_lines(&[(0, 0xE1), (1, 0xC0)]),
            &[-3, 4, -3, 0, 1, 0, 0],
        );
    }

    #[test]
    fn the_last_pel_stands_above_two_trailing_bits() {
        assert_same(&two_lines(&[(215, 0x04)]), &[1725, -1, 0, 1, 0, 0]);
        assert_same(&two_lines(&[(215, 0x08)]), &[1724, -1, 0, 1, 0, 0]);
    }

    #[test]
    fn the_upper_line_comes_first() {
        let mut bitmap = two_lines(&[(0, 0x80)]);
        bitmap[4 + 216] = 0xC0;
        assert_same(&bitmap, &[-1, 0, -2, 0, 0]);
    }

    #[test]
    fn a_bitmap_is_refused_before_its_room_is_judged() {
        let mut bitmap = two_lines(&[(215, 0x02)]);
        let refused =
            |bitmap: &[u8], room| words_of_bitmap(bitmap, room).map_err(Refusal::returned);
        assert_eq!(refused(&bitmap, 0), Err(18));
        bitmap[2] = 3;
        assert_eq!(refused(&bitmap, 0), Err(17));
        assert_eq!(refused(&two_lines(&[]), 4), Err(16));
        assert_eq!(refused(&two_lines(&[]), 0), Err(16));
        assert_eq!(refused(&two_lines(&[]), 5), Ok(vec![1, 0, 1, 0, 0]));
    }

    #[test]
    fn words_are_refused_before_the_room_is_judged() {
        let refused = |words: &[i16], room| bitmap_of_words(words, room).map_err(Refusal::returned);
        assert_eq!(refused(&[1, 0, 5, 0, 0], 0), Err(22));
        assert_eq!(refused(&[1, 0, 0], 0), Err(17));
        assert_eq!(refused(&[1, 0, 1, 0, 0], 4 + 2 * 216 - 1), Err(16));
        assert_eq!(refused(&[1, 0, 1, 0, 0], 0), Err(16));
        assert_eq!(
            refused(&[1, 0, 1, 0, 0], 4 + 2 * 216),
            Ok((two_lines(&[]), 5))
        );
    }

    #[test]
    fn pages_of_6000_lines_pass() {
        let mut bitmap = vec![0; 4 + 6000 * 216];
        bitmap[..4].copy_from_slice(&[190, 6, 0x70, 0x17]);
        let words = [[1, 0].repeat(6000), vec![0]].concat();
        assert_same(&bitmap, &words);
    }

    #[test]
    fn pages_of_6002_lines_do_not() {
        let mut bitmap = vec![0; 4 + 6002 * 216];
        bitmap[..4].copy_from_slice(&[190, 6, 0x72, 0x17]);
        assert_eq!(words_of(&bitmap), Err(17));
        let words = [[1, 0].repeat(6002), vec![0]].concat();
        assert_eq!(bitmap_of(&words), Err(17));
    }

    #[test]
    fn random_pages_come_back_from_either_form() {
        let mut random = Random::new(1726);
        for _ in 0..2000 {
            let page = random::page::page(&mut random);
            let (bitmap, words) = (bitmap::written(&page), words::written(&page));
            assert_eq!(bitmap::read(&bitmap).as_ref(), Ok(&page));
            assert_eq!(words::read(&words), Ok((page, words.len())));
            assert_same(&bitmap, &words);
        }
    }
}
