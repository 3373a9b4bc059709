//! A Number: the fraction as its SLOT gives it, and the double of that fraction.

use super::double::quotient;

#[derive(Clone, Copy, Debug, PartialEq)]
pub struct Number {
    /// The bits of a double.
    pub double: u64,
    /// The whole number above the line.
    pub above: i64,
    pub divisor: u16,
}

/// The bytes of a row's body: the double, the whole number, the divisor.
pub const BODY: usize = size_of::<u64>() + size_of::<i64>() + size_of::<u16>();

/// No whole number above the line is larger in size.
const MOST_ABOVE: u64 = 1 << 49;

impl Number {
    /// The fraction unreduced, and the one division of it.
    pub fn of(above: i64, divisor: u16) -> Number {
        Number {
            double: quotient(above, divisor),
            above,
            divisor,
        }
    }

    pub fn body(&self) -> Vec<u8> {
        let (double, above) = (self.double.to_be_bytes(), self.above.to_be_bytes());
        [&double[..], &above, &self.divisor.to_be_bytes()].concat()
    }

    /// None where a body is no Number's: a part is outside its range, or the
    /// double is not that of the fraction.
    pub fn of_body(body: &[u8]) -> Option<Number> {
        let (double, fraction) = body.split_first_chunk()?;
        let (above, divisor) = fraction.split_first_chunk()?;
        let above = i64::from_be_bytes(*above);
        let divisor = u16::from_be_bytes(divisor.try_into().ok()?);
        if divisor == 0 || above.unsigned_abs() > MOST_ABOVE {
            return None;
        }
        let number = Number::of(above, divisor);
        (number.double == u64::from_be_bytes(*double)).then_some(number)
    }

    /// A smaller whole number and divisor would give the same double.
    pub fn is_reducible(&self) -> bool {
        let (mut larger, mut smaller) = (self.above.unsigned_abs(), u64::from(self.divisor));
        while smaller != 0 {
            (larger, smaller) = (smaller, larger % smaller);
        }
        larger > 1
    }
}

#[cfg(test)]
mod tests {
    use super::*;

    #[test]
    fn the_fraction_stays_unreduced() {
        let number = Number::of(300, 3);
        assert_eq!((number.above, number.divisor), (300, 3));
        assert_eq!(number.double, 100.0_f64.to_bits());
        assert_ne!(number, Number::of(100, 1));
        assert!(number.is_reducible() && !Number::of(100, 1).is_reducible());
        assert!(Number::of(0, 128).is_reducible() && !Number::of(0, 1).is_reducible());
        assert!(!Number::of(-1, 65535).is_reducible());
    }

    #[test]
    fn bodies() {
        let twos_complement = [
            &[0xC0, 0x59, 0, 0, 0, 0, 0, 0][..],
            &[0xFF, 0xFF, 0xFF, 0xFF, 0xFF, 0xFF, 0xCE, 0x00],
            &[0x00, 0x80],
        ];
        let number = Number::of(-12800, 128);
        assert_eq!(number.body(), twos_complement.concat());
        assert_eq!(number.body().len(), BODY);
        for number in [number, Number::of(0, 65535), Number::of(1 << 49, 1)] {
            assert_eq!(Number::of_body(&number.body()), Some(number));
        }
    }

    #[test]
    fn what_is_no_body() {
        let sound = Number::of(300, 3).body();
        for length in 0..BODY {
            assert_eq!(Number::of_body(&sound[..length]), None);
        }
        assert_eq!(Number::of_body(&[&sound[..], &[0]].concat()), None);
        for place in 0..BODY {
            let mut other = sound.clone();
            other[place] ^= 1;
            assert_eq!(Number::of_body(&other), None, "{place}");
        }
        let without_divisor = [0; BODY];
        assert_eq!(Number::of_body(&without_divisor), None);
        for above in [(1 << 49) + 1, -(1 << 49) - 1, i64::MIN] {
            assert_eq!(Number::of_body(&Number::of(above, 1).body()), None);
        }
    }
}
