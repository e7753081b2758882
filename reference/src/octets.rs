//! Octets, their bits, and the fields made of those bits.

/// The other form of an octet: stored from sent, or sent from stored.
pub fn turned(octet: u8) -> u8 {
    !octet.reverse_bits()
}

pub fn all_turned(octets: &[u8]) -> Vec<u8> {
    octets.iter().map(|octet| turned(*octet)).collect()
}

/// Bit `i` of `octets`, the high bit of the first octet being bit 0.
pub fn bit(octets: &[u8], i: usize) -> bool {
    octets[i / 8] & (0x80 >> (i % 8)) != 0
}

/// The field of `width` bits (16 at most) at bit `first`, sent low bit first.
pub fn low_first(octets: &[u8], first: usize, width: usize) -> u16 {
    (0..width).fold(0, |value, i| value | u16::from(bit(octets, first + i)) << i)
}

/// The field of `width` bits (16 at most) at bit `first`, sent high bit first.
pub fn high_first(octets: &[u8], first: usize, width: usize) -> u16 {
    (0..width).fold(0, |value, i| value << 1 | u16::from(bit(octets, first + i)))
}

/// The low `width` bits of a value in the order sent, low bit first.
pub fn bits_low_first(value: u64, width: usize) -> impl Iterator<Item = u8> {
    (0..width).map(move |i| (value >> i & 1) as u8)
}

/// The low `width` bits of a value in the order sent, high bit first.
pub fn bits_high_first(value: u64, width: usize) -> impl Iterator<Item = u8> {
    (0..width).rev().map(move |i| (value >> i & 1) as u8)
}

/// The octets of `bits`, each 0 or 1, the last octet filled with 0.
pub fn packed(bits: &[u8]) -> Vec<u8> {
    bits.chunks(8)
        .map(|eight| {
            (0..)
                .zip(eight)
                .fold(0, |octet, (i, bit)| octet | bit << (7 - i))
        })
        .collect()
}

#[cfg(test)]
mod tests {
    use super::*;

    #[test]
    fn octet_62_turns_to_b9() {
        assert_eq!(turned(0x62), 0xB9);
    }

    #[test]
    fn sync_turns_as_the_scope_paper_says() {
        assert_eq!([0x62, 0x79, 0xD8].map(turned), [0xB9, 0x61, 0xE4]);
    }

    #[test]
    fn turning_twice_changes_nothing() {
        assert!((0..=255).all(|octet| turned(turned(octet)) == octet));
    }

    #[test]
    fn fields_may_cross_octets() {
        let octets = [0b0000_0011, 0b0100_0000];
        assert_eq!(low_first(&octets, 6, 4), 0b1011);
        assert_eq!(high_first(&octets, 6, 4), 0b1101);
    }

    #[test]
    fn fields_have_the_bits_of_their_values() {
        let bits = |bits: &mut dyn Iterator<Item = u8>| bits.collect::<Vec<u8>>();
        assert_eq!(bits(&mut bits_low_first(0b01101, 5)), [1, 0, 1, 1, 0]);
        assert_eq!(bits(&mut bits_high_first(0b01101, 5)), [0, 1, 1, 0, 1]);
        assert_eq!(bits(&mut bits_low_first(0b101, 2)), [1, 0]);
        assert_eq!(bits(&mut bits_high_first(0b101, 2)), [0, 1]);
    }

    #[test]
    fn packing_keeps_every_bit() {
        let bits = [0, 1, 1, 0, 0, 0, 1, 0, 1, 1, 1];
        assert_eq!(packed(&bits), [0x62, 0b1110_0000]);
        assert_eq!(packed(&[]), []);
    }
}
