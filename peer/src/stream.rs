//! The stream of a cable adapter: records one after the other, frames and ticks.
//! What it tells is told twice: read at once here, and part after part in `step`.

pub mod draft;
pub mod record;
pub mod state;
pub mod step;

use crate::frame::bus::Runs;

/// The refusals of a stream.
pub mod refusal {
    pub const KIND_UNKNOWN: u8 = 60;
    pub const RECORD_WRONG: u8 = 61;
    pub const CUT: u8 = 62;
}

/// What a record gives that is no tick: its two runs, unread, or its refusal.
#[derive(Clone, Debug, PartialEq)]
pub enum Event {
    Frame(Runs),
    Refused(u8),
}

/// All that a stream tells.
#[derive(Debug, Default, PartialEq)]
pub struct Told {
    /// Each with the place of its record.
    pub events: Vec<(u64, Event)>,
    /// The place of the record inside which the stream ended.
    pub cut: Option<u64>,
}

/// The stream read at once, record by record; `before` bytes came before it. A
/// place is the bytes before a record, modulo 2^64.
pub fn at_once(before: u64, stream: &[u8]) -> Told {
    let mut told = Told::default();
    let mut rest = stream;
    while let Some(kind) = rest.first() {
        let place = before.wrapping_add((stream.len() - rest.len()) as u64);
        let Some(length) = record::length(*kind) else {
            let unknown = Event::Refused(refusal::KIND_UNKNOWN);
            told.events.push((place, unknown));
            return told;
        };
        let Some((record, behind)) = rest.split_at_checked(length) else {
            told.cut = Some(place);
            return told;
        };
        told.events
            .extend(record::event(record).map(|event| (place, event)));
        rest = behind;
    }
    told
}

#[cfg(test)]
#[path = "stream/stream_tests.rs"]
mod tests;
