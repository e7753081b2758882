//! Memory to lend to a call, with more of it on either side, all filled with
//! random numbers: what a call may not change can then be seen not to change.

use std::fmt::Display;
use std::iter::repeat_with;

use crate::random::Random;

/// The items kept on either side of what is lent.
const MARGIN: usize = 8;

/// A kind of number that memory is lent as.
pub trait Item: Copy + Display + PartialEq {
    fn some(random: &mut Random, number: usize) -> Vec<Self>;
}

impl Item for u8 {
    fn some(random: &mut Random, number: usize) -> Vec<u8> {
        let eights = repeat_with(|| random.number().to_le_bytes());
        eights.flatten().take(number).collect()
    }
}

impl Item for i16 {
    fn some(random: &mut Random, number: usize) -> Vec<i16> {
        let octets = u8::some(random, 2 * number);
        let pairs = octets.chunks(2);
        pairs
            .map(|two| i16::from_le_bytes([two[0], two[1]]))
            .collect()
    }
}

impl Item for u64 {
    fn some(random: &mut Random, number: usize) -> Vec<u64> {
        repeat_with(|| random.number()).take(number).collect()
    }
}

#[derive(Clone, Debug, PartialEq, Eq)]
pub struct Lent<T>(Vec<T>);

impl<T: Item> Lent<T> {
    pub fn new(random: &mut Random, length: usize) -> Lent<T> {
        Lent(T::some(random, length + 2 * MARGIN))
    }

    pub fn slice(&mut self) -> &mut [T] {
        let end = self.0.len() - MARGIN;
        &mut self.0[MARGIN..end]
    }

    /// The first item that is not as in `actual`, in words. Its index is that in
    /// the lent slice, below 0 in the margin before it.
    pub fn difference(&self, actual: &Lent<T>) -> Option<String> {
        let mut pairs = (0..).zip(self.0.iter().zip(&actual.0));
        let (i, (expected, actual)) = pairs.find(|(_, (own, other))| own != other)?;
        let index: isize = i - MARGIN as isize;
        Some(format!("item {index} is {actual}, expected {expected}"))
    }
}
