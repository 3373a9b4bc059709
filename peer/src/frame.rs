//! Frames of J1850 with consolidated headers, two byte runs, before EOD and
//! after; and messages of ISO 9141-2, one run. Both come apart into `Parts`.

pub mod bus;
pub mod check_byte;
pub mod draft;
pub mod header;
pub mod iso;
pub mod reader;
pub mod writer;

/// All bytes of a frame, both runs together, number at most this; of a message
/// too.
pub const MOST_BYTES: usize = 12;

/// The refusals of reader and writer.
pub mod refusal {
    pub const TOO_LONG: u8 = 1;
    pub const FIRST_RUN_SHORT: u8 = 2;
    pub const CHECK_BYTE: u8 = 3;
    pub const UNASSIGNED: u8 = 4;
    pub const RESPONSE_CHECK_BYTE: u8 = 6;
    pub const HEADER: u8 = 7;
    pub const OUTPUT_SHORT: u8 = 8;
    /// ISO 9141-2 alone: a first byte with H = 1 or K = 0.
    pub const FIRST_BYTE: u8 = 9;
    pub const RESPONSE_FORBIDDEN: u8 = 50;
    pub const RESPONSE_MISSING: u8 = 51;
    /// Of the reader alone.
    pub const RESPONSE_TOO_FEW: u8 = 52;
    pub const RESPONSE_TOO_MANY: u8 = 53;
}

/// What a reader hands on, the same on both buses: the parts of an accepted
/// frame or message, without check bytes.
#[derive(Debug, PartialEq)]
pub struct Parts<'a> {
    pub header: &'a [u8],
    pub data: &'a [u8],
    pub kind: u8,
    pub response: &'a [u8],
}

/// Header and data of a run that ends with a check byte.
fn split_run(run: &[u8], header_length: usize) -> (&[u8], &[u8]) {
    without_last(run).split_at(header_length)
}

fn without_last(run: &[u8]) -> &[u8] {
    &run[..run.len() - 1]
}

/// What reader and writer test of the count of response bytes, in the order 50
/// to 53; `kind_3_least` is the least that kind 3 needs.
fn test_response_count(kind: u8, count: usize, kind_3_least: usize) -> Result<(), u8> {
    match (kind, count) {
        // kind 0 is that of K = 1 and of no other type
        (0, 0) => Ok(()),
        (0, _) => Err(refusal::RESPONSE_FORBIDDEN),
        (_, 0) => Err(refusal::RESPONSE_MISSING),
        (3, _) if count < kind_3_least => Err(refusal::RESPONSE_TOO_FEW),
        (1, 2..) => Err(refusal::RESPONSE_TOO_MANY),
        _ => Ok(()),
    }
}

/// What both writers test last: the length of the result, then the room for it.
fn test_need(need: usize, out_length: usize) -> Result<(), u8> {
    if need > MOST_BYTES {
        return Err(refusal::TOO_LONG);
    }
    if out_length < need {
        return Err(refusal::OUTPUT_SHORT);
    }
    Ok(())
}

/// An accepted answer: low byte 0, the numbers in the bytes above it.
/// Each fits a byte, because an accepted frame has `MOST_BYTES` at most.
pub fn accepted_answer(numbers: &[usize]) -> u64 {
    let mut answer = 0;
    for (place, number) in numbers.iter().enumerate() {
        assert!(*number <= MOST_BYTES);
        answer |= (*number as u64) << (8 * (place + 1));
    }
    answer
}

/// The number that a reading call returns.
fn read_answer(read: Result<Parts, u8>) -> u64 {
    match read {
        Ok(parts) => accepted_answer(&[
            parts.header.len(),
            parts.data.len(),
            usize::from(parts.kind),
            parts.response.len(),
        ]),
        Err(number) => u64::from(number),
    }
}
