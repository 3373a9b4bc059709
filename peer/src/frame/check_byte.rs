//! The SAE J1850 check byte.

/// x^8 + x^4 + x^3 + x^2 + 1 without its highest term.
const POLYNOMIAL: u8 = 0x1D;

/// What the register holds after header, data and a right check byte.
pub const RESIDUE: u8 = 0xC4;

/// The register after `bytes`, most significant bit first, from all ones.
pub fn register(bytes: &[u8]) -> u8 {
    let mut register = 0xFF;
    for byte in bytes {
        for place in (0..8).rev() {
            register = take_bit(register, (byte >> place) & 1);
        }
    }
    register
}

/// One bit of the message enters; the polynomial is taken off if it differs
/// from the bit that leaves.
fn take_bit(register: u8, entering: u8) -> u8 {
    let leaving = register >> 7;
    let shifted = register << 1;
    if entering == leaving {
        shifted
    } else {
        shifted ^ POLYNOMIAL
    }
}

/// The byte sent after `bytes`: the complement of the register.
pub fn check_byte(bytes: &[u8]) -> u8 {
    !register(bytes)
}

/// `bytes` with their check byte.
pub fn checked(bytes: &[u8]) -> Vec<u8> {
    let mut run = bytes.to_vec();
    run.push(check_byte(bytes));
    run
}

/// The last byte is not the check byte of those before it, or there is none.
pub fn is_wrong(run: &[u8]) -> bool {
    match run.split_last() {
        Some((last, before)) => *last != check_byte(before),
        None => true,
    }
}

/// Published byte runs and their check bytes.
pub const PUBLISHED: [(&[u8], u8); 8] = [
    (b"123456789", 0x4B),
    (&[0x00, 0x00, 0x00, 0x00], 0x59),
    (&[0xF2, 0x01, 0x83], 0x37),
    (&[0x0F, 0xAA, 0x00, 0x55], 0x79),
    (&[0x00, 0xFF, 0x55, 0x11], 0xB8),
    (
        &[0x33, 0x22, 0x55, 0xAA, 0xBB, 0xCC, 0xDD, 0xEE, 0xFF],
        0xCB,
    ),
    (&[0x92, 0x6B, 0x55], 0x8C),
    (&[0xFF, 0xFF, 0xFF, 0xFF], 0x74),
];

#[cfg(test)]
mod tests {
    use super::*;
    use crate::random::Random;

    #[test]
    fn published_values() {
        for (bytes, check) in PUBLISHED {
            assert_eq!(check_byte(bytes), check, "{bytes:02X?}");
        }
    }

    #[test]
    fn residue_is_left_exactly_by_a_right_check_byte() {
        let mut random = Random::new(3);
        for length in 0..12 {
            let bytes = random.bytes(length);
            for last in 0..=255 {
                let mut run = bytes.clone();
                run.push(last);
                assert_eq!(register(&run) == RESIDUE, last == check_byte(&bytes));
                assert_eq!(is_wrong(&run), last != check_byte(&bytes));
            }
        }
    }

    #[test]
    fn nothing_has_the_check_byte_zero() {
        assert_eq!(check_byte(&[]), 0);
        assert!(is_wrong(&[]));
        assert_eq!(checked(&[]), [0]);
    }
}
