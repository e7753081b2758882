//! The bitmap of a page: the pels of a line and the lines, two octets each with
//! the low one first, then the lines.

use super::{is_number_of_lines, Line, Page, PELS};
use crate::octets::{bit, packed};
use crate::refusal::Refusal;

/// The octets before the first line.
pub const HEADER: usize = 4;

/// The octets of a line.
pub const LINE: usize = 216;

/// The bits of a line's last octet that are no pels.
const TRAILING: u8 = 0b11;

pub fn read(octets: &[u8]) -> Result<Page, Refusal> {
    let lines = lines(octets).ok_or(Refusal::of_no_record(17))?;
    if octets.len() != HEADER + LINE * lines {
        return Err(Refusal::of_no_record(18));
    }
    let page: Option<Page> = octets[HEADER..].chunks(LINE).map(line).collect();
    page.ok_or(Refusal::of_no_record(18))
}

pub fn written(page: &[Line]) -> Vec<u8> {
    let mut octets = Vec::new();
    octets.extend((PELS as u16).to_le_bytes());
    octets.extend((page.len() as u16).to_le_bytes());
    for line in page {
        octets.extend(packed(&line.map(u8::from)));
    }
    octets
}

/// The number of lines, if the first octets are those of a page.
fn lines(octets: &[u8]) -> Option<usize> {
    let header = octets.get(..HEADER)?;
    let pels = usize::from(header[0]) + 256 * usize::from(header[1]);
    let lines = usize::from(header[2]) + 256 * usize::from(header[3]);
    (pels == PELS && is_number_of_lines(lines)).then_some(lines)
}

/// The pels of a line's octets, unless a trailing bit is set.
fn line(octets: &[u8]) -> Option<Line> {
    let pels = std::array::from_fn(|x| bit(octets, x));
    (octets[LINE - 1] & TRAILING == 0).then_some(pels)
}

#[cfg(test)]
mod tests {
    use super::*;

    /// A white page with `lines` in its header and `octets` in all.
    fn white(lines: u16, octets: usize) -> Vec<u8> {
        let [low, high] = lines.to_le_bytes();
        let mut bitmap = vec![190, 6, low, high];
        bitmap.resize(octets, 0);
        bitmap
    }

    fn number(octets: &[u8]) -> u64 {
        read(octets).map_or_else(Refusal::returned, |_| 0)
    }

    #[test]
    fn a_width_of_1726_is_190_and_6() {
        let bitmap = white(2, HEADER + 2 * LINE);
        assert_eq!(number(&bitmap), 0);
        for wrong in [[6, 190], [190, 5], [190, 7], [189, 6], [191, 6], [192, 6]] {
            let mut bitmap = bitmap.clone();
            bitmap[..2].copy_from_slice(&wrong);
            assert_eq!(number(&bitmap), 17);
        }
    }

    #[test]
    fn under_four_octets_are_no_header() {
        for octets in 0..4 {
            assert_eq!(number(&white(2, 4)[..octets]), 17);
        }
        assert_eq!(number(&white(2, 4)), 18);
    }

    #[test]
    fn lines_are_even_and_2_to_6000() {
        for lines in 0..=7000_u16 {
            let wanted = if lines == 0 || lines > 6000 || lines % 2 == 1 {
                17
            } else {
                18
            };
            assert_eq!(number(&white(lines, 4)), wanted);
        }
        for lines in [2, 4, 254, 256, 258, 5998, 6000] {
            assert_eq!(number(&white(lines, 4 + 216 * usize::from(lines))), 0);
        }
        for lines in [0, 1, 3, 257, 5999, 6001, 6002, 6256] {
            assert_eq!(number(&white(lines, 4 + 216 * usize::from(lines))), 17);
        }
    }

    #[test]
    fn a_line_has_216_octets() {
        let right = 4 + 216 * 2;
        assert_eq!(number(&white(2, right)), 0);
        for wrong in [4, right - 216, right - 1, right + 1, right + 216] {
            assert_eq!(number(&white(2, wrong)), 18);
        }
    }

    #[test]
    fn the_two_low_bits_of_each_last_octet_are_0() {
        for line in 0..4 {
            let last = 4 + 216 * line + 215;
            for trailing in [0b01, 0b10, 0b11] {
                let mut bitmap = white(4, 4 + 216 * 4);
                bitmap[last] = trailing;
                assert_eq!(number(&bitmap), 18);
            }
            let mut bitmap = white(4, 4 + 216 * 4);
            bitmap[last] = 0b100;
            assert_eq!(number(&bitmap), 0);
        }
    }
}
