//! The calls that read a stream part after part, byte by byte.

use super::state::State;
use super::{record, refusal, Event};
use crate::frame::accepted_answer;
use crate::frame::refusal::OUTPUT_SHORT;
use std::mem;

/// What one part comes to: the first event in it, the bytes taken, which end
/// with its record or with the part, and the state behind them.
#[derive(Debug, PartialEq)]
pub struct Step {
    pub event: Option<Event>,
    pub taken: usize,
    pub after: State,
}

pub fn step(state: &State, part: &[u8]) -> Step {
    let mut after = state.clone();
    let mut taken = 0;
    let mut event = None;
    while event.is_none() && !after.stopped && taken < part.len() {
        event = take(&mut after, part[taken]);
        taken += 1;
    }
    Step {
        event,
        taken,
        after,
    }
}

/// Takes one byte; an event if it is the last of its record.
fn take(state: &mut State, byte: u8) -> Option<Event> {
    state.held.push(byte);
    if record::is_begun(&state.held) {
        return None;
    }
    let record = mem::take(&mut state.held);
    state.place = state.place.wrapping_add(record.len() as u64);
    state.stopped = record::length(record[0]).is_none();
    match state.stopped {
        true => Some(Event::Refused(refusal::KIND_UNKNOWN)),
        false => record::event(&record),
    }
}

/// The number `rakhubole_stream_read` returns, and the bytes it puts at the
/// start of the lent output; none but for a frame.
pub fn answer_to_read(state: &[u8], part: &[u8], out_length: usize) -> (u64, Vec<u8>) {
    match step(&State::of(state), part).event {
        None => (0, Vec::new()),
        Some(Event::Refused(number)) => (number.into(), Vec::new()),
        Some(Event::Frame((first, second))) if first.len() + second.len() <= out_length => {
            let answer = accepted_answer(&[1, first.len(), second.len()]);
            (answer, [first, second].concat())
        }
        Some(Event::Frame(_)) => (OUTPUT_SHORT.into(), Vec::new()),
    }
}

/// The number `rakhubole_stream_advance` returns, and the state it writes.
pub fn answer_to_advance(state: &[u8], part: &[u8]) -> (u64, Vec<u8>) {
    let step = step(&State::of(state), part);
    (step.taken as u64, step.after.bytes())
}

/// The answers of both in one, as `rakhubole_stream_next` makes them: after 8
/// nothing is taken and the state is as it was.
pub fn answers_to_next(
    state: &[u8],
    part: &[u8],
    out_length: usize,
) -> ((u64, Vec<u8>), (u64, Vec<u8>)) {
    let told = answer_to_read(state, part, out_length);
    let advanced = match told.0 == u64::from(OUTPUT_SHORT) {
        true => (0, state.to_vec()),
        false => answer_to_advance(state, part),
    };
    (told, advanced)
}

/// The number `rakhubole_stream_end` returns.
pub fn answer_to_end(state: &[u8]) -> u64 {
    let state = State::of(state);
    match state.held.is_empty() || state.stopped {
        true => 0,
        false => refusal::CUT.into(),
    }
}

/// The number `rakhubole_stream_place` returns.
pub fn answer_to_place(state: &[u8]) -> u64 {
    State::of(state).place
}

#[cfg(test)]
#[path = "step_tests.rs"]
mod tests;
