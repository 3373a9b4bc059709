//! Items among the data: runs of bits at any place, most significant first.

/// The number that the `width` bits from `start` on spell; at most 64.
pub fn cut(data: &[u8], start: usize, width: usize) -> u64 {
    let bits = (start..start + width).map(|place| bit(data, place));
    bits.fold(0, |number, bit| 2 * number + u64::from(bit))
}

fn bit(data: &[u8], place: usize) -> bool {
    data[place / 8] & mask(place) != 0
}

fn mask(place: usize) -> u8 {
    0x80 >> (place % 8)
}

/// Spells `raw` in those bits; what does not fit them is left away.
pub fn put(data: &mut [u8], start: usize, width: usize, raw: u64) {
    for after in 0..width {
        let place = start + width - 1 - after;
        let byte = &mut data[place / 8];
        *byte &= !mask(place);
        if raw >> after & 1 == 1 {
            *byte |= mask(place);
        }
    }
}

/// The number that the last `width` bits of `raw` spell in two's complement;
/// beyond 32 bits there is no sign among them.
pub fn signed(raw: u32, width: u8) -> i64 {
    let number = i64::from(raw);
    if width <= 32 && number >= 1 << (width - 1) {
        number - (1 << width)
    } else {
        number
    }
}

#[cfg(test)]
mod tests {
    use super::*;
    use crate::random::Random;

    #[test]
    fn bits_come_most_significant_first() {
        let data = [0b1010_0101, 0b1100_0011];
        assert_eq!(cut(&data, 0, 8), 0xA5);
        assert_eq!(cut(&data, 0, 1), 1);
        assert_eq!(cut(&data, 1, 3), 0b010);
        assert_eq!(cut(&data, 4, 8), 0x5C);
        assert_eq!(cut(&data, 15, 1), 1);
        assert_eq!(cut(&data, 0, 16), 0xA5C3);
    }

    #[test]
    fn items_are_pieces_of_one_long_number() {
        let mut random = Random::new(43);
        let data = random.bytes(9);
        let whole = data
            .iter()
            .fold(0_u128, |whole, byte| whole << 8 | u128::from(*byte));
        for width in 1..=64 {
            for start in 0..=72 - width {
                let piece = whole >> (72 - start - width) & ((1 << width) - 1);
                assert_eq!(u128::from(cut(&data, start, width)), piece);
            }
        }
    }

    #[test]
    fn twos_complement() {
        assert_eq!(signed(0x80, 8), -128);
        assert_eq!(signed(0xFF, 8), -1);
        assert_eq!(signed(0x7F, 8), 127);
        assert_eq!((signed(0, 1), signed(1, 1)), (0, -1));
        assert_eq!(signed(0xFFFF_FFFF, 32), -1);
        assert_eq!(signed(0x8000_0000, 32), i64::from(i32::MIN));
        assert_eq!(signed(0x8000, 17), 0x8000);
    }
}
