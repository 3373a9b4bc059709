//! The supplement: records of SLOTs, PRNs, layouts and selector lengths beside the
//! SAE tables.

pub mod draft;
pub mod layout;
pub mod record;
pub mod records;
pub mod selector_length;

use record::{key_of, Record};
use std::collections::HashSet;

/// A supplement has at most this many bytes.
pub const MOST_BYTES: usize = 16_384;

/// The refusals of a supplement.
pub mod refusal {
    pub const TOO_LONG: u8 = 10;
    pub const UNKNOWN_KIND: u8 = 11;
    pub const CUT: u8 = 12;
    pub const RANGE: u8 = 13;
    pub const SEEN_BEFORE: u8 = 14;
    pub const IN_SAE: u8 = 15;
}

/// The number and the place of the refusal, if there is one: of the first record
/// with a fault, the lowest number that applies to it.
fn refusal(supplement: &[u8]) -> Option<(u8, usize)> {
    if supplement.len() > MOST_BYTES {
        return Some((refusal::TOO_LONG, 0));
    }
    let mut keys = HashSet::new();
    let mut place = 0;
    while place < supplement.len() {
        match record_at(&supplement[place..], &mut keys) {
            Ok(length) => place += length,
            Err(number) => return Some((number, place)),
        }
    }
    None
}

/// The length of the record at the start, or its refusal. `keys` are kind byte
/// and key of the records before it.
fn record_at<'a>(rest: &'a [u8], keys: &mut HashSet<&'a [u8]>) -> Result<usize, u8> {
    let length = record::length(rest[0]).ok_or(refusal::UNKNOWN_KIND)?;
    let bytes = rest.get(..length).ok_or(refusal::CUT)?;
    let record = Record::of(bytes);
    if !record.is_in_range() {
        return Err(refusal::RANGE);
    }
    if !keys.insert(key_of(bytes)) {
        return Err(refusal::SEEN_BEFORE);
    }
    if record.is_in_sae() {
        return Err(refusal::IN_SAE);
    }
    Ok(length)
}

/// Low byte the refusal, bits 8 to 31 the place.
pub fn refused_answer(number: u8, place: usize) -> u64 {
    u64::from(number) | (place as u64) << 8
}

/// The number `rakhubole_supplement_check` returns.
pub fn answer(supplement: &[u8]) -> u64 {
    refusal(supplement).map_or(0, |(number, place)| refused_answer(number, place))
}

#[cfg(test)]
#[path = "supplement/supplement_tests.rs"]
mod tests;
