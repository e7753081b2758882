//! The columns of a page, from row pair to row pair, each by its two pels.

use super::{Line, Page, PELS};

pub fn of(page: &[Line]) -> Vec<u8> {
    let pairs = page.chunks_exact(2);
    pairs
        .flat_map(|pair| (0..PELS).map(|x| u8::from(pair[0][x]) << 1 | u8::from(pair[1][x])))
        .collect()
}

/// The page of columns that fill row pairs.
pub fn page(columns: &[u8]) -> Page {
    let pairs = columns.chunks_exact(PELS);
    pairs
        .flat_map(|pair| {
            let row = |pel: u8| std::array::from_fn(|x| pair[x] & pel != 0);
            [row(0b10), row(0b01)]
        })
        .collect()
}

#[cfg(test)]
mod tests {
    use super::*;
    use crate::random::{self, Random};

    #[test]
    fn the_upper_pel_is_the_high_bit() {
        let mut page = vec![[false; PELS]; 4];
        page[0][0] = true;
        page[1][1] = true;
        page[2][1725] = true;
        page[3][1725] = true;
        let columns = of(&page);
        assert_eq!(columns.len(), 2 * PELS);
        let black: Vec<_> = (0..).zip(columns).filter(|(_, pels)| *pels != 0).collect();
        assert_eq!(black, [(0, 0b10), (1, 0b01), (3451, 0b11)]);
    }

    #[test]
    fn random_pages_come_back() {
        let mut random = Random::new(863);
        for _ in 0..200 {
            let lines = random::page::page(&mut random);
            assert_eq!(page(&of(&lines)), lines);
        }
    }
}
