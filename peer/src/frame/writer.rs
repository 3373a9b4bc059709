//! Writing: header, data and response into two runs with their check bytes.

use super::check_byte::checked;
use super::header::{header_length, kind_of_run, response_kind};
use super::refusal::*;
use super::{accepted_answer, test_need, test_response_count};

/// A data byte; the check byte is not among those given. So 52 cannot arise.
const KIND_3_LEAST: usize = 1;

/// What the writer is given: the parts without check bytes, and the length
/// of the lent output.
#[derive(Clone, Copy, Debug)]
pub struct Request<'a> {
    pub header: &'a [u8],
    pub data: &'a [u8],
    pub response: &'a [u8],
    pub out_length: usize,
}

/// The length of both runs together, check bytes included.
pub fn result_length(header: &[u8], data: &[u8], response: &[u8]) -> usize {
    let check_bytes = 1 + usize::from(kind_of_run(header) == Some(3));
    let given = [header, data, response].map(<[u8]>::len);
    given.into_iter().fold(check_bytes, usize::saturating_add)
}

/// Header, data and their check byte.
pub fn first_run(header: &[u8], data: &[u8]) -> Vec<u8> {
    checked(&[header, data].concat())
}

/// The response, with a check byte of its own if its kind has one.
pub fn response_run(kind: Option<u8>, response: &[u8]) -> Vec<u8> {
    if kind == Some(3) {
        checked(response)
    } else {
        response.to_vec()
    }
}

/// The first run and the response, or the refusal of the first test that fails,
/// in the order 7, 4, 50, 51, 53, 1, 8.
pub fn write(request: &Request) -> Result<(Vec<u8>, Vec<u8>), u8> {
    let first_byte = *request.header.first().ok_or(HEADER)?;
    if request.header.len() != header_length(first_byte) {
        return Err(HEADER);
    }
    let kind = response_kind(first_byte).ok_or(UNASSIGNED)?;
    test_response_count(kind, request.response.len(), KIND_3_LEAST)?;
    let need = result_length(request.header, request.data, request.response);
    test_need(need, request.out_length)?;
    let first = first_run(request.header, request.data);
    Ok((first, response_run(Some(kind), request.response)))
}

/// The number `rakhubole_j1850_write` returns, and the bytes it puts at the
/// start of the lent output; none for a refusal.
pub fn answer(request: &Request) -> (u64, Vec<u8>) {
    match write(request) {
        Ok((first, response)) => {
            let number = accepted_answer(&[first.len(), response.len()]);
            (number, [first, response].concat())
        }
        Err(number) => (u64::from(number), Vec::new()),
    }
}

#[cfg(test)]
#[path = "writer_tests.rs"]
mod tests;
