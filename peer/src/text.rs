//! Bytes and numbers as upper-case hex digits.

/// Two digits a byte, nothing between.
pub fn hex(bytes: &[u8]) -> String {
    bytes.iter().map(|byte| format!("{byte:02X}")).collect()
}

/// `hex` filled up with ".." to `places` bytes.
pub fn hex_field(bytes: &[u8], places: usize) -> String {
    assert!(bytes.len() <= places, "a field has {places} bytes at most");
    hex(bytes) + &"..".repeat(places - bytes.len())
}

/// The sixteen digits of an answer.
pub fn hex_answer(answer: u64) -> String {
    format!("{answer:016X}")
}
