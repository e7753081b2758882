//! The 12-bit check register, one bit at a time.

use std::fmt;

use crate::{frame, octets};

/// One more than the largest value of the register.
pub const SIZE: u16 = 1 << 12;

/// The low twelve coefficients of x**12 + x**8 + x**7 + x**5 + x**3 + 1, the
/// polynomial in RFC 803's field table.
pub const RFC_803_GENERATOR: u16 = 1 << 8 | 1 << 7 | 1 << 5 | 1 << 3 | 1;

/// The order in which the bits of the check field are sent.
#[derive(Clone, Copy, Debug, PartialEq, Eq)]
pub enum Order {
    /// As the scope paper has it.
    LowFirst,
    /// As the frames in RFC 798's appendix have it.
    HighFirst,
}

impl Order {
    /// Each at its number.
    pub const ALL: [Order; 2] = [Order::LowFirst, Order::HighFirst];
}

/// What is left to the caller about the check.
#[derive(Clone, Copy, Debug, PartialEq, Eq)]
pub struct Setting {
    pub generator: u16,
    pub start: u16,
    pub first_bit: usize,
    pub order: Order,
}

impl Setting {
    /// The register after a sent frame's bits from the first bit up to its check.
    pub fn check(&self, frame: &[u8]) -> u16 {
        let bits = (self.first_bit..frame::CHECK).map(|i| octets::bit(frame, i));
        run(self.generator, self.start, bits)
    }

    /// Whether a sent frame's check field is its check.
    pub fn agrees(&self, frame: &[u8]) -> bool {
        self.check(frame) == frame::check(frame, self.order)
    }
}

/// A check setting as it is handed in, allowed or not.
#[derive(Clone, Copy, Debug, PartialEq, Eq)]
pub struct HandedIn {
    pub generator: u64,
    pub start: u64,
    pub first_bit: u64,
    /// 1 to compare, 0 not to.
    pub compare: u64,
    /// 0 for the low bit first, 1 for the high bit first.
    pub order: u64,
}

impl HandedIn {
    pub fn of(setting: Setting, compare: bool) -> HandedIn {
        HandedIn {
            generator: setting.generator.into(),
            start: setting.start.into(),
            first_bit: setting.first_bit as u64,
            compare: compare.into(),
            order: setting.order as u64,
        }
    }

    /// The setting and whether to compare by it, if it is allowed.
    pub fn allowed(self) -> Option<(Setting, bool)> {
        let size = u64::from(SIZE);
        let generator = self.generator % 2 == 1 && self.generator < size;
        let first_bit = self.first_bit == 0 || self.first_bit == 24;
        let order = match self.order {
            0 => Order::LowFirst,
            1 => Order::HighFirst,
            _ => return None,
        };
        let setting = Setting {
            generator: self.generator as u16,
            start: self.start as u16,
            first_bit: self.first_bit as usize,
            order,
        };
        (generator && self.start < size && first_bit && self.compare < 2)
            .then_some((setting, self.compare == 1))
    }
}

impl fmt::Display for HandedIn {
    fn fmt(&self, f: &mut fmt::Formatter) -> fmt::Result {
        let HandedIn {
            generator,
            start,
            first_bit,
            compare,
            order,
        } = self;
        write!(
            f,
            "generator {generator}, start {start}, first bit {first_bit}, compare {compare}, order {order}"
        )
    }
}

/// The register after one more bit.
pub fn step(generator: u16, register: u16, bit: bool) -> u16 {
    let top = register >> 11 == 1;
    let shifted = register << 1 & (SIZE - 1);
    if bit != top {
        shifted ^ generator
    } else {
        shifted
    }
}

/// The register after all of `bits`.
pub fn run(generator: u16, start: u16, bits: impl IntoIterator<Item = bool>) -> u16 {
    bits.into_iter()
        .fold(start, |register, bit| step(generator, register, bit))
}

#[cfg(test)]
mod tests {
    use super::*;
    use crate::appendix;

    #[test]
    fn rfc_803_generator_is_425() {
        assert_eq!(RFC_803_GENERATOR, 425);
    }

    #[test]
    fn check_of_a_single_one_is_the_generator() {
        for generator in (1..SIZE).step_by(2) {
            assert_eq!(run(generator, 0, [true]), generator);
        }
    }

    /// Whether a setting is allowed that differs from an allowed one.
    fn allowed(change: impl Fn(&mut HandedIn)) -> bool {
        let mut handed_in = HandedIn {
            generator: 425,
            start: 0,
            first_bit: 0,
            compare: 1,
            order: 0,
        };
        change(&mut handed_in);
        handed_in.allowed().is_some()
    }

    #[test]
    fn generators_are_odd_and_below_4096() {
        for generator in 0..10_000 {
            let wanted = generator % 2 == 1 && generator < 4096;
            assert_eq!(allowed(|own| own.generator = generator), wanted);
        }
        for generator in [(1 << 16) + 425, (1 << 32) + 425, u64::MAX] {
            assert!(!allowed(|own| own.generator = generator));
        }
    }

    #[test]
    fn starts_are_below_4096() {
        for start in 0..10_000 {
            assert_eq!(allowed(|own| own.start = start), start < 4096);
        }
        for start in [1 << 16, 1 << 32, u64::MAX] {
            assert!(!allowed(|own| own.start = start));
        }
    }

    #[test]
    fn the_first_bit_is_0_or_24() {
        for first_bit in 0..1000 {
            let wanted = first_bit == 0 || first_bit == 24;
            assert_eq!(allowed(|own| own.first_bit = first_bit), wanted);
        }
        for first_bit in [1 << 16, (1 << 32) + 24, u64::MAX] {
            assert!(!allowed(|own| own.first_bit = first_bit));
        }
    }

    #[test]
    fn to_compare_is_1_and_not_to_is_0() {
        for compare in [2, 3, 256, (1 << 32) + 1, u64::MAX] {
            assert!(!allowed(|own| own.compare = compare));
        }
        let setting = Setting {
            generator: 4095,
            start: 4095,
            first_bit: 24,
            order: Order::HighFirst,
        };
        for compare in [false, true] {
            let handed_in = HandedIn::of(setting, compare);
            assert_eq!(handed_in.compare, u64::from(compare));
            assert_eq!(handed_in.allowed(), Some((setting, compare)));
        }
    }

    #[test]
    fn the_low_bit_first_is_0_and_the_high_bit_first_is_1() {
        for order in [2, 3, 256, 1 << 16, (1 << 32) + 1, 1 << 63, u64::MAX] {
            assert!(!allowed(|own| own.order = order));
        }
        for (number, order) in [(0, Order::LowFirst), (1, Order::HighFirst)] {
            let setting = Setting {
                generator: 425,
                start: 0,
                first_bit: 0,
                order,
            };
            for compare in [false, true] {
                let handed_in = HandedIn::of(setting, compare);
                assert_eq!(handed_in.order, number);
                assert_eq!(handed_in.allowed(), Some((setting, compare)));
            }
            assert_eq!(Order::ALL[number as usize], order);
        }
    }

    /// What all five frames in RFC 798's appendix agree by.
    const OF_THE_APPENDIX: Setting = Setting {
        generator: RFC_803_GENERATOR,
        start: 0,
        first_bit: 0,
        order: Order::HighFirst,
    };

    fn frames() -> [[u8; 74]; 5] {
        appendix::sent().map(|record| appendix::frame(&record))
    }

    #[test]
    fn the_frames_of_the_appendix_agree_high_bit_first() {
        let low_first = Setting {
            order: Order::LowFirst,
            ..OF_THE_APPENDIX
        };
        for frame in frames() {
            assert!(OF_THE_APPENDIX.agrees(&frame));
            assert!(!low_first.agrees(&frame));
        }
    }

    /// The sync is judged before the check, and the padding not at all.
    #[test]
    fn a_single_bit_turned_in_a_frame_of_the_appendix_differs() {
        for frame in frames() {
            for i in frame::HEADER..frame::PADDING {
                let mut turned = frame;
                turned[i / 8] ^= 0x80 >> (i % 8);
                assert!(!OF_THE_APPENDIX.agrees(&turned), "bit {i}");
            }
        }
    }

    #[test]
    fn the_top_bit_is_dropped_and_cancels_a_one() {
        assert_eq!(step(425, 0x801, true), 0x002);
        assert_eq!(step(425, 0x801, false), 0x002 ^ 425);
    }
}
