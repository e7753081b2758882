//! A sent frame, 585 bits and 7 of padding in 74 octets: where things stand in
//! it, and how it is put together.

use crate::octets::{bit, bits_high_first, bits_low_first, high_first, low_first, packed};
use crate::part::{Start, State};
use crate::register::{Order, Setting};

pub const OCTETS: usize = 74;

/// The first bit of each part.
pub const SYNC: usize = 0;
pub const HEADER: usize = 24;
pub const DATA: usize = 61;
pub const CHECK: usize = 573;
pub const PADDING: usize = 585;

/// The octets of a right sync.
pub const RIGHT_SYNC: [u8; 3] = [0x62, 0x79, 0xD8];

/// The flags that a data frame is written with.
pub const RUN: u16 = 0b10000;

#[derive(Clone, Copy, Debug, PartialEq, Eq)]
pub struct Header {
    pub sequence: u16,
    /// Run, cofb, rpt, spare, sub, from the high bit down.
    pub flags: u16,
    pub count: u16,
    pub x: u16,
    pub black: u16,
    pub white: u16,
    /// The upper pel is the high bit.
    pub state: u16,
}

impl Header {
    /// The header of a set-up frame.
    pub const OF_SET_UP: Header = Header {
        sequence: 0,
        flags: 0b00101,
        count: 1023,
        x: 4095,
        black: 7,
        white: 7,
        state: 0b11,
    };

    pub fn of(frame: &[u8]) -> Header {
        Header {
            sequence: high_first(frame, HEADER, 2),
            flags: high_first(frame, HEADER + 2, 5),
            count: low_first(frame, HEADER + 7, 10),
            x: low_first(frame, HEADER + 17, 12),
            black: low_first(frame, HEADER + 29, 3),
            white: low_first(frame, HEADER + 32, 3),
            state: high_first(frame, HEADER + 35, 2),
        }
    }

    /// The 37 bits in the order sent.
    fn bits(self) -> impl Iterator<Item = u8> {
        bits_high_first(self.sequence.into(), 2)
            .chain(bits_high_first(self.flags.into(), 5))
            .chain(bits_low_first(self.count.into(), 10))
            .chain(bits_low_first(self.x.into(), 12))
            .chain(bits_low_first(self.black.into(), 3))
            .chain(bits_low_first(self.white.into(), 3))
            .chain(bits_high_first(self.state.into(), 2))
    }
}

/// The 512 data bits of a sent frame, from the first bit of an octet on.
pub fn data(frame: &[u8]) -> Vec<u8> {
    let bits: Vec<u8> = (DATA..CHECK).map(|i| u8::from(bit(frame, i))).collect();
    packed(&bits)
}

/// The check field of a sent frame, its bits taken in this order.
pub fn check(frame: &[u8], order: Order) -> u16 {
    let field = match order {
        Order::LowFirst => low_first,
        Order::HighFirst => high_first,
    };
    field(frame, CHECK, PADDING - CHECK)
}

/// What a frame is put together from: all but its check.
#[derive(Clone, Debug, PartialEq, Eq)]
pub struct Frame {
    pub sync: [u8; 3],
    pub header: Header,
    /// The 512 data bits, each 0 or 1.
    pub data: Vec<u8>,
    /// The last 7 bits, of which the high one is sent first.
    pub padding: u8,
}

impl Frame {
    /// A frame as it is written: the data begins with `bits`, the rest is 0.
    pub fn new(header: Header, bits: &[u8]) -> Frame {
        let mut data = bits.to_vec();
        data.resize(CHECK - DATA, 0);
        Frame {
            sync: RIGHT_SYNC,
            header,
            data,
            padding: 0,
        }
    }

    /// The frame that was sent so.
    pub fn of(sent: &[u8]) -> Frame {
        Frame {
            sync: [sent[0], sent[1], sent[2]],
            header: Header::of(sent),
            data: (DATA..CHECK).map(|i| u8::from(bit(sent, i))).collect(),
            padding: high_first(sent, PADDING, 7) as u8,
        }
    }

    /// Where its data part starts, as its header says but for X.
    pub fn start(&self, x: usize) -> Start {
        Start {
            state: State::ALL[usize::from(self.header.state)],
            black: self.header.black.into(),
            white: self.header.white.into(),
            x,
        }
    }

    /// The data bits that are counted.
    pub fn counted(&self) -> &[u8] {
        &self.data[..usize::from(self.header.count)]
    }

    /// The sent octets, with the check by this setting.
    pub fn sent(&self, setting: Setting) -> Vec<u8> {
        let sync = self.sync.iter();
        let mut bits: Vec<u8> = sync
            .flat_map(|octet| bits_high_first((*octet).into(), 8))
            .chain(self.header.bits())
            .chain(self.data.iter().copied())
            .collect();
        assert_eq!(bits.len(), CHECK);
        let check = setting.check(&packed(&bits)).into();
        match setting.order {
            Order::LowFirst => bits.extend(bits_low_first(check, PADDING - CHECK)),
            Order::HighFirst => bits.extend(bits_high_first(check, PADDING - CHECK)),
        }
        bits.extend(bits_high_first(self.padding.into(), 7));
        packed(&bits)
    }
}

#[cfg(test)]
mod tests {
    use super::*;
    use crate::appendix;

    #[test]
    fn frames_put_together_again_differ_only_in_the_check() {
        for order in Order::ALL {
            let setting = Setting {
                generator: 0x80F,
                start: 0x123,
                first_bit: 24,
                order,
            };
            for record in appendix::sent() {
                let sent = appendix::frame(&record);
                let again = Frame::of(&sent).sent(setting);
                assert_eq!(again.len(), OCTETS);
                assert_eq!(check(&again, order), setting.check(&sent));
                assert!(setting.agrees(&again));
                let others = (0..8 * OCTETS).filter(|i| !(CHECK..PADDING).contains(i));
                assert!(others.into_iter().all(|i| bit(&sent, i) == bit(&again, i)));
            }
        }
    }

    #[test]
    fn frames_of_the_appendix_put_together_again_are_the_same() {
        let setting = Setting {
            generator: 425,
            start: 0,
            first_bit: 0,
            order: Order::HighFirst,
        };
        for record in appendix::sent() {
            let sent = appendix::frame(&record);
            assert_eq!(Frame::of(&sent).sent(setting), sent);
        }
    }

    #[test]
    fn the_check_field_is_turned_about_by_the_order() {
        let mut frame = [0; OCTETS];
        // Bits 573, 574 and 584.
        frame[71] |= 0b0000_0110;
        frame[73] |= 0b1000_0000;
        assert_eq!(check(&frame, Order::LowFirst), 0b1000_0000_0011);
        assert_eq!(check(&frame, Order::HighFirst), 0b1100_0000_0001);
    }

    #[test]
    fn the_header_of_a_set_up_is_that_of_the_appendix() {
        let sent = appendix::frame(&appendix::sent()[0]);
        assert_eq!(Header::of(&sent), Header::OF_SET_UP);
    }
}
