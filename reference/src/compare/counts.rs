//! How many inputs there were of a kind, and what came of them.

use std::fmt;

#[derive(Debug, Default)]
pub struct Counts {
    pub all: u64,
    pub spoilt: u64,
    /// By the refusal's number, the accepted ones under 0.
    pub numbers: [u64; 26],
}

impl Counts {
    /// Counts an input by the refusal's number, or 0.
    pub fn add(&mut self, spoilt: bool, number: u64) {
        self.all += 1;
        self.spoilt += u64::from(spoilt);
        self.numbers[number as usize] += 1;
    }

    /// Those of the numbers that were given fewer than `least` times.
    pub fn rare(&self, numbers: impl IntoIterator<Item = usize>, least: u64) -> Vec<usize> {
        let rare = |number: &usize| self.numbers[*number] < least;
        numbers.into_iter().filter(rare).collect()
    }
}

impl fmt::Display for Counts {
    fn fmt(&self, f: &mut fmt::Formatter) -> fmt::Result {
        let accepted = self.numbers[0];
        write!(
            f,
            "{}, of these spoilt {}: accepted {accepted}",
            self.all, self.spoilt
        )?;
        let refused = (1..)
            .zip(&self.numbers[1..])
            .filter(|(_, times)| **times > 0);
        for (i, (number, times)) in refused.enumerate() {
            let before = if i == 0 { "refused by " } else { "" };
            write!(f, ", {before}{number}: {times}")?;
        }
        Ok(())
    }
}
