//! Check settings that are not allowed.

use crate::random::Random;
use crate::register::HandedIn;

/// Makes a check that is not allowed, among them those that only look allowed
/// when cut to fewer bits.
pub fn spoil(random: &mut Random, check: &mut HandedIn) {
    let high = random.pick(&[1 << 12, 1 << 16, 1 << 32, 1 << 63]);
    let any = random.number();
    match random.below(10) {
        0 => check.generator ^= 1,
        1 => check.generator = random.pick(&[0, 4097, any | 4096]),
        2 => check.generator |= high,
        3 => check.start = random.pick(&[4096, 4097, any | 4096]),
        4 => check.start |= high,
        5 => check.first_bit = random.pick(&[1, 2, 8, 12, 16, 23, 25, 48, 573, any | 1]),
        6 => check.first_bit |= high,
        7 => check.compare = random.pick(&[2, 3, 256, 1 | high, any | 2]),
        8 => check.order = random.pick(&[2, 3, 256, any | 2]),
        _ => check.order |= high,
    }
}

#[cfg(test)]
mod tests {
    use super::*;
    use crate::random::file::setting;

    #[test]
    fn spoilt_checks_are_not_allowed() {
        let mut random = Random::new(20);
        for _ in 0..2000 {
            let mut check = HandedIn::of(setting(&mut random), true);
            assert!(check.allowed().is_some());
            spoil(&mut random, &mut check);
            assert!(check.allowed().is_none(), "{check}");
        }
    }
}
