//! One exact division, rounded once to a 64-bit IEEE number.

/// Bits of the significand, the first one included.
const SIGNIFICANT: u32 = 53;
const BIAS: i64 = 1023;

/// The bits of `above` / `divisor`, rounded to nearest, halves to even. The
/// whole number 0 gives +0. The divisor is at least 1.
pub fn quotient(above: i64, divisor: u16) -> u64 {
    assert!(divisor >= 1, "a divisor is at least 1");
    if above == 0 {
        return 0;
    }
    let sign = u64::from(above < 0) << 63;
    let (exponent, top, bottom) = scaled(above.unsigned_abs().into(), divisor.into());
    let (significand, twice_rest) = digits(top, bottom);
    let is_up = twice_rest > bottom || twice_rest == bottom && significand % 2 == 1;
    // a significand that grows by a bit carries into the exponent
    let fraction = significand + u64::from(is_up) - (1 << (SIGNIFICANT - 1));
    let exponent = ((exponent + BIAS) as u64) << (SIGNIFICANT - 1);
    sign | (exponent + fraction)
}

/// An exponent and two numbers whose quotient is from 1 to below 2; the
/// quotient of those given is that many doublings of it.
fn scaled(mut top: u128, mut bottom: u128) -> (i64, u128, u128) {
    let mut exponent = 0;
    while top >= 2 * bottom {
        bottom *= 2;
        exponent += 1;
    }
    while top < bottom {
        top *= 2;
        exponent -= 1;
    }
    (exponent, top, bottom)
}

/// The first bits of the quotient one by one, and twice what is left.
fn digits(mut top: u128, bottom: u128) -> (u64, u128) {
    let mut significand = 0;
    for _ in 0..SIGNIFICANT {
        let is_one = top >= bottom;
        significand = 2 * significand + u64::from(is_one);
        top = 2 * (top - if is_one { bottom } else { 0 });
    }
    (significand, top)
}

#[cfg(test)]
mod tests {
    use super::*;
    use crate::random::Random;

    /// The machine's division; both numbers are doubles exactly.
    fn machine(above: i64, divisor: u16) -> u64 {
        assert!(above.unsigned_abs() <= 1 << 53);
        (above as f64 / f64::from(divisor)).to_bits()
    }

    fn assert_same(above: i64, divisor: u16) {
        let given = quotient(above, divisor);
        assert_eq!(given, machine(above, divisor), "{above} / {divisor}");
    }

    #[test]
    fn published_numbers() {
        assert_eq!(quotient(101, 1), 0x4059_4000_0000_0000);
        assert_eq!(quotient(0, 128), 0);
        assert_eq!(quotient(-12800, 128), (-100.0_f64).to_bits());
        assert_eq!(quotient(300, 3), 100.0_f64.to_bits());
    }

    #[test]
    fn small_numbers_by_every_divisor() {
        for divisor in 1..=u16::MAX {
            for above in -20..=20 {
                assert_same(above, divisor);
            }
            let divisor_wide = i64::from(divisor);
            assert_same(divisor_wide, divisor);
            assert_same(-divisor_wide - 1, divisor);
        }
    }

    #[test]
    fn random_numbers_of_every_length() {
        let mut random = Random::new(41);
        for _ in 0..2_000_000 {
            let above = random.number() as i64 >> random.between(11, 63);
            let divisor = (random.number() as u16) >> random.below(16);
            assert_same(above, divisor.max(1));
        }
    }

    /// (N x multiplier + offset) / divisor at the ends of every field.
    #[test]
    fn the_ends_of_the_fields() {
        let ends_of_raw = [-(1 << 31), -1, 0, 1, (1 << 31) - 1, (1 << 32) - 1];
        for raw in ends_of_raw {
            for multiplier in [0, 1, 65535] {
                for offset in [i32::MIN, -1, 0, 1, i32::MAX] {
                    for divisor in [1, 2, 3, 7, 255, 256, 65521, 65535] {
                        let above: i64 = raw * multiplier + i64::from(offset);
                        assert_same(above, divisor);
                    }
                }
            }
        }
    }

    /// By 1 and by powers of two the machine rounds every whole number alike.
    #[test]
    fn halves_go_to_even() {
        let mut random = Random::new(42);
        let mut halves = 0;
        for _ in 0..300_000 {
            let above = random.number() as i64 >> random.below(12);
            let above = above & !0 << random.below(12);
            let shift = random.below(16);
            let scale = (1_u16 << shift) as f64;
            let expected = above as f64 / scale;
            assert_eq!(quotient(above, 1 << shift), expected.to_bits(), "{above}");
            let distance = (above as f64 as i128 - i128::from(above)).abs();
            let unit = 1_i128 << above.unsigned_abs().max(1).ilog2().saturating_sub(52);
            halves += u32::from(2 * distance == unit);
        }
        assert!(halves > 100, "{halves}");
        assert_eq!(quotient((1 << 53) + 1, 1), 9007199254740992.0_f64.to_bits());
        assert_eq!(quotient((1 << 53) + 3, 1), 9007199254740996.0_f64.to_bits());
        assert_eq!(quotient(i64::MIN, 1), (i64::MIN as f64).to_bits());
        assert_eq!(quotient(i64::MAX, 1), (i64::MAX as f64).to_bits());
    }
}
