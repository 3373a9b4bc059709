//! One record of a stream: a kind byte and a body whose length the kind fixes.

use super::{refusal, Event};
use crate::frame::bus::Runs;

pub const FRAME: u8 = 1;
pub const TICK: u8 = 2;

/// Kind byte and body.
pub const FRAME_LENGTH: usize = 15;
pub const TICK_LENGTH: usize = 5;

/// Where the twelve bytes of a frame record stand, behind kind byte and lengths.
pub const RUNS_PLACE: usize = 3;

/// The length of a record of a known kind.
pub fn length(kind: u8) -> Option<usize> {
    match kind {
        FRAME => Some(FRAME_LENGTH),
        TICK => Some(TICK_LENGTH),
        _ => None,
    }
}

/// The bytes are the beginning of a record of a known kind that needs more.
pub fn is_begun(bytes: &[u8]) -> bool {
    let whole = bytes.first().and_then(|kind| length(*kind));
    whole.is_some_and(|whole| bytes.len() < whole)
}

/// What a whole record of a known kind gives; a tick gives nothing.
pub fn event(record: &[u8]) -> Option<Event> {
    (record[0] == FRAME).then(|| match runs(record) {
        Some(runs) => Event::Frame(runs),
        None => Event::Refused(refusal::RECORD_WRONG),
    })
}

/// The runs of a frame record, if their lengths are at most twelve together and
/// the unused bytes are zero.
fn runs(record: &[u8]) -> Option<Runs> {
    let [first, second] = [record[1], record[2]].map(usize::from);
    let (used, unused) = record[RUNS_PLACE..].split_at_checked(first + second)?;
    let (first, second) = used.split_at(first);
    let is_sound = unused.iter().all(|byte| *byte == 0);
    is_sound.then(|| (first.to_vec(), second.to_vec()))
}
