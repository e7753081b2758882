//! Comparing the proved calls with this reading of the papers on random inputs.

pub mod counts;
pub mod frames;
pub mod lent;
pub mod outcome;
pub mod part;
pub mod read;
mod spoilt_bitmap;
mod spoilt_check;
mod stops;
pub mod words;
pub mod write;

/// The index and the seed of the input that a difference says to replay.
#[cfg(test)]
fn replayed(difference: &str, command: &str) -> (u64, u64) {
    let (_, replay) = difference.split_once(command).expect("a replay");
    let numbers: Vec<u64> = replay
        .split_whitespace()
        .map(|word| word.parse().expect("a number"))
        .collect();
    (numbers[0], numbers[1])
}
