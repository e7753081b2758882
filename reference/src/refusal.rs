//! Refusals, by the numbers of the scope paper's list.

use std::fmt;

/// The number of a data part that has no reading, the only one that tells a bit.
pub const NO_READING: u64 = 11;

#[derive(Clone, Copy, Debug, PartialEq, Eq)]
pub struct Refusal {
    pub number: u64,
    /// The record it falls at, from 0; 0 where there are no records.
    pub record: u64,
    /// Of [`NO_READING`] the length of the data part's longest beginning that has
    /// a reading; 0 of every other number.
    pub bit: u64,
}

/// The number of a refusal, or 0 if there is none.
pub fn number<T>(result: &Result<T, Refusal>) -> u64 {
    result.as_ref().err().map_or(0, |refusal| refusal.number)
}

impl Refusal {
    /// A refusal by a call that is lent no records.
    pub fn of_no_record(number: u64) -> Refusal {
        Refusal {
            number,
            record: 0,
            bit: 0,
        }
    }

    /// A refusal of a data part whose longest beginning that has a reading has so
    /// many bits.
    pub fn no_reading(beginning: usize) -> Refusal {
        Refusal {
            bit: beginning as u64,
            ..Refusal::of_no_record(NO_READING)
        }
    }

    /// The same at a record.
    pub fn at(self, record: u64) -> Refusal {
        Refusal { record, ..self }
    }

    /// What a C call returns for it.
    pub fn returned(self) -> u64 {
        self.number + (self.bit << 8) + (self.record << 24)
    }
}

/// A number by itself, of which the record is not yet said.
impl From<u64> for Refusal {
    fn from(number: u64) -> Refusal {
        Refusal::of_no_record(number)
    }
}

/// As a listing has it.
impl fmt::Display for Refusal {
    fn fmt(&self, f: &mut fmt::Formatter) -> fmt::Result {
        let Refusal {
            number,
            record,
            bit,
        } = self;
        write!(f, "refused {number} at {record}")?;
        if *number == NO_READING {
            write!(f, " bit {bit}")?;
        }
        Ok(())
    }
}

#[cfg(test)]
mod tests {
    use super::*;

    #[test]
    fn only_of_no_reading_a_bit_is_told() {
        let told = |refusal: Refusal| refusal.to_string();
        assert_eq!(
            told(Refusal::no_reading(213).at(40)),
            "refused 11 at 40 bit 213"
        );
        assert_eq!(told(Refusal::no_reading(0)), "refused 11 at 0 bit 0");
        assert_eq!(told(Refusal::from(7).at(3)), "refused 7 at 3");
    }

    #[test]
    fn number_bit_and_record_are_returned_side_by_side() {
        let returned = Refusal::no_reading(511).at(40).returned();
        assert_eq!(returned, 11 + 256 * 511 + 16_777_216 * 40);
        assert_eq!(Refusal::of_no_record(20).returned(), 20);
        assert_eq!(Refusal::from(1).at(1 << 39).returned(), (1 << 63) + 1);
    }
}
