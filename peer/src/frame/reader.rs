//! Reading: two runs with their check bytes into header, data and response.

use super::check_byte;
use super::header::{header_length, response_kind};
use super::refusal::*;
pub use super::Parts;
use super::{read_answer, split_run, test_response_count, without_last, MOST_BYTES};

/// A data byte and the check byte.
const KIND_3_LEAST: usize = 2;

/// The parts of the frame, or the refusal of the first test that fails, in the
/// order 1, 2, 3, 4, 50, 51, 52, 53, 6.
pub fn read<'a>(first: &'a [u8], response: &'a [u8]) -> Result<Parts<'a>, u8> {
    if first.len().saturating_add(response.len()) > MOST_BYTES {
        return Err(TOO_LONG);
    }
    let first_byte = *first.first().ok_or(FIRST_RUN_SHORT)?;
    let header_length = header_length(first_byte);
    if first.len() < header_length + 1 {
        return Err(FIRST_RUN_SHORT);
    }
    if check_byte::is_wrong(first) {
        return Err(CHECK_BYTE);
    }
    let kind = response_kind(first_byte).ok_or(UNASSIGNED)?;
    test_response_count(kind, response.len(), KIND_3_LEAST)?;
    // a kind 3 check byte is taken over the response's data alone
    if kind == 3 && check_byte::is_wrong(response) {
        return Err(RESPONSE_CHECK_BYTE);
    }
    let (header, data) = split_run(first, header_length);
    Ok(Parts {
        header,
        data,
        kind,
        response: match kind {
            3 => without_last(response),
            _ => response,
        },
    })
}

/// The number `rakhubole_j1850_read` returns.
pub fn answer(first: &[u8], response: &[u8]) -> u64 {
    read_answer(read(first, response))
}

#[cfg(test)]
#[path = "reader_tests.rs"]
mod tests;
