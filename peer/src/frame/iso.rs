//! Messages of ISO 9141-2: three header bytes, data and a check byte that is
//! the sum of the bytes before it modulo 256; there is no response.

use super::refusal::*;
use super::{accepted_answer, read_answer, split_run, test_need, Parts, MOST_BYTES};

/// The first byte, target and source.
pub const HEADER_LENGTH: usize = 3;
/// Header and check byte.
pub const LEAST_BYTES: usize = HEADER_LENGTH + 1;

/// The bits of the first byte that the bus fixes: H = 0 and K = 1.
const H_AND_K: u8 = 0x18;
const K_ALONE: u8 = 0x08;

/// The check byte sent after `bytes`.
pub fn sum(bytes: &[u8]) -> u8 {
    let whole: usize = bytes.iter().copied().map(usize::from).sum();
    (whole % 256) as u8
}

/// `bytes` with their check byte.
pub fn summed(bytes: &[u8]) -> Vec<u8> {
    [bytes, &[sum(bytes)]].concat()
}

/// H = 1 or K = 0.
pub fn is_first_byte_wrong(first_byte: u8) -> bool {
    first_byte & H_AND_K != K_ALONE
}

/// The first byte of the same priority and type that the bus has.
pub fn fitting_first_byte(first_byte: u8) -> u8 {
    first_byte & !H_AND_K | K_ALONE
}

/// The parts of the message, or the refusal of the first test that fails, in
/// the order 1, 2, 3, 9.
pub fn read(run: &[u8]) -> Result<Parts<'_>, u8> {
    if run.len() > MOST_BYTES {
        return Err(TOO_LONG);
    }
    if run.len() < LEAST_BYTES {
        return Err(FIRST_RUN_SHORT);
    }
    let (header, data) = split_run(run, HEADER_LENGTH);
    if run.last() != Some(&sum(&[header, data].concat())) {
        return Err(CHECK_BYTE);
    }
    if is_first_byte_wrong(header[0]) {
        return Err(FIRST_BYTE);
    }
    Ok(Parts {
        header,
        data,
        kind: 0,
        response: &[],
    })
}

/// The number `rakhubole_iso9141_read` returns.
pub fn answer_to_read(run: &[u8]) -> u64 {
    read_answer(read(run))
}

/// What the writer is given: the parts without check byte, and the length of
/// the lent output.
#[derive(Clone, Copy, Debug)]
pub struct Request<'a> {
    pub header: &'a [u8],
    pub data: &'a [u8],
    pub out_length: usize,
}

/// The message, or the refusal of the first test that fails, in the order 7,
/// 9, 1, 8.
pub fn write(request: &Request) -> Result<Vec<u8>, u8> {
    if request.header.len() != HEADER_LENGTH {
        return Err(HEADER);
    }
    if is_first_byte_wrong(request.header[0]) {
        return Err(FIRST_BYTE);
    }
    let need = LEAST_BYTES.saturating_add(request.data.len());
    test_need(need, request.out_length)?;
    Ok(summed(&[request.header, request.data].concat()))
}

/// The number `rakhubole_iso9141_write` returns, and the bytes it puts at the
/// start of the lent output; none for a refusal.
pub fn answer_to_write(request: &Request) -> (u64, Vec<u8>) {
    match write(request) {
        Ok(run) => (accepted_answer(&[run.len()]), run),
        Err(number) => (u64::from(number), Vec::new()),
    }
}

#[cfg(test)]
#[path = "iso_tests.rs"]
mod tests;
