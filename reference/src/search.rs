//! The search for check settings by which given sent frames agree with their
//! check fields.

use crate::frame::{self, CHECK};
use crate::register::{run, Order, Setting, SIZE};

/// The largest number of frames that agree by one setting, and every setting
/// by which that many agree.
#[derive(Debug, Default, PartialEq, Eq)]
pub struct Best {
    pub frames: usize,
    pub settings: Vec<Setting>,
}

/// Every odd generator of the register.
pub fn odd_generators() -> impl Iterator<Item = u16> {
    (1..SIZE).step_by(2)
}

/// Tries the generators with every start and both first bits.
pub fn search<F: AsRef<[u8]>>(
    frames: &[F],
    generators: impl IntoIterator<Item = u16>,
    order: Order,
) -> Best {
    let mut best = Best::default();
    for generator in generators {
        for first_bit in [0, 24] {
            // By linearity the register at the end is the sum of what the
            // frame's bits leave from start 0 and what the start leaves after
            // as many zeros. So a frame agrees when the start leaves this:
            let wanted: Vec<u16> = frames
                .iter()
                .map(|frame| {
                    let from_zero = Setting {
                        generator,
                        start: 0,
                        first_bit,
                        order,
                    };
                    from_zero.check(frame.as_ref()) ^ frame::check(frame.as_ref(), order)
                })
                .collect();
            for (start, left) in (0..).zip(left_by_starts(generator, CHECK - first_bit)) {
                let agreeing = wanted.iter().filter(|&&wanted| wanted == left).count();
                if agreeing > best.frames {
                    best = Best {
                        frames: agreeing,
                        settings: Vec::new(),
                    };
                }
                if agreeing == best.frames {
                    best.settings.push(Setting {
                        generator,
                        start,
                        first_bit,
                        order,
                    });
                }
            }
        }
    }
    best
}

/// What each start leaves in the register after `zeros` zero bits. Only the
/// twelve starts of a single one are run; the others are sums of these.
fn left_by_starts(generator: u16, zeros: usize) -> Vec<u16> {
    let mut left = vec![0];
    for i in 0..12 {
        let single = run(generator, 1 << i, std::iter::repeat_n(false, zeros));
        for lower in 0..left.len() {
            left.push(left[lower] ^ single);
        }
    }
    left
}

#[cfg(test)]
mod tests {
    use super::*;
    use crate::{appendix, octets::bit, register::RFC_803_GENERATOR};

    fn frames() -> [[u8; 74]; 5] {
        appendix::sent().map(|record| appendix::frame(&record))
    }

    #[test]
    fn starts_leave_what_the_register_says() {
        let left = left_by_starts(RFC_803_GENERATOR, 549);
        assert_eq!(left.len(), 4096);
        for start in 0..SIZE {
            let zeros = std::iter::repeat_n(false, 549);
            assert_eq!(
                left[usize::from(start)],
                run(RFC_803_GENERATOR, start, zeros)
            );
        }
    }

    #[test]
    fn settings_found_agree_when_run_bit_by_bit() {
        let frames = frames();
        for order in Order::ALL {
            let best = search(&frames, [RFC_803_GENERATOR], order);
            for setting in best.settings {
                assert_eq!(setting.order, order);
                let agreeing = frames.iter().filter(|frame| setting.agrees(*frame));
                assert_eq!(agreeing.count(), best.frames);
            }
        }
    }

    #[test]
    fn low_first_rfc_803_generator_fits_no_two_frames() {
        let best = search(&frames(), [RFC_803_GENERATOR], Order::LowFirst);
        assert_eq!(best.frames, 1);
    }

    #[test]
    fn high_first_rfc_803_generator_fits_all_five_frames() {
        let best = search(&frames(), [RFC_803_GENERATOR], Order::HighFirst);
        assert_eq!(best.frames, 5);
        let starts: Vec<_> = best
            .settings
            .iter()
            .map(|s| (s.start, s.first_bit))
            .collect();
        assert_eq!(starts, [(0, 0), (3060, 24)]);
    }

    #[test]
    fn sync_takes_start_0_to_3060() {
        let sync = (0..24).map(|i| bit(&frames()[0], i));
        assert_eq!(run(RFC_803_GENERATOR, 0, sync), 3060);
    }

    #[test]
    fn a_planted_setting_is_found() {
        let planted = Setting {
            generator: 0x80F,
            start: 0x123,
            first_bit: 24,
            order: Order::LowFirst,
        };
        let frames = frames().map(|mut frame| {
            let check = planted.check(&frame);
            for i in 0..12 {
                let (octet, mask) = ((CHECK + i) / 8, 0x80 >> ((CHECK + i) % 8));
                frame[octet] &= !mask;
                if check >> i & 1 == 1 {
                    frame[octet] |= mask;
                }
            }
            frame
        });
        let best = search(&frames, [planted.generator], Order::LowFirst);
        assert_eq!(best.frames, 5);
        assert!(best.settings.contains(&planted));
    }
}
