//! Random streams with their cuts, places and rooms, and random steps.

use crate::case::Case;
use crate::frame::MOST_BYTES;
use crate::random::Random;
use crate::stream::at_once;
use crate::stream::draft::{state, stream_of, tick_record};
use crate::stream::record::{FRAME, TICK};
use crate::stream::refusal::KIND_UNKNOWN;
use crate::stream::state::{COUNT, HELD, LENGTH, MOST_HELD, STOPPED};
use crate::stream::Event;

/// A stream of more bytes is cut once at most.
const LONG: usize = 1000;

/// Seldom one that begins with more ticks than 16 bits can count the bytes of.
pub fn stream(random: &mut Random) -> Vec<u8> {
    let stream = stream_of(random.below(8), random);
    if !random.once_in(400) {
        return stream;
    }
    let ticks = random.between(20 * LONG, 30 * LONG);
    [tick_record([FRAME; 4]).repeat(ticks), stream].concat()
}

/// The ways in which a stream is cut.
pub const CUTS: [&str; 3] = ["one byte at a time", "all at once", "cut at random"];

/// Places to cut so many bytes at, and which way it is.
pub fn cuts(length: usize, random: &mut Random) -> (&'static str, Vec<usize>) {
    match random.below(8) {
        0 if length <= LONG => (CUTS[0], (1..length).collect()),
        1 => (CUTS[1], Vec::new()),
        _ => {
            let most = if length <= LONG { 9 } else { 1 };
            let count = random.between(1, most);
            let mut cuts: Vec<usize> = (0..count).map(|_| random.below(length + 1)).collect();
            cuts.sort();
            (CUTS[2], cuts)
        }
    }
}

/// The bytes before a stream: mostly none, now and then so many that their count
/// begins anew.
pub fn place(random: &mut Random) -> u64 {
    match random.below(8) {
        0 => u64::MAX - random.below(40) as u64,
        1 => random.number(),
        _ => 0,
    }
}

/// One in three may be too short.
pub fn room(random: &mut Random) -> usize {
    match random.below(6) {
        0 | 1 => random.below(MOST_BYTES),
        2 => MOST_BYTES,
        _ => MOST_BYTES + random.below(4),
    }
}

/// A state, mostly behind the beginning of a stream, and the rest of the stream.
pub fn step(random: &mut Random) -> Case {
    let stream = stream_of(random.between(1, 5), random);
    let (fed, part) = stream.split_at(random.below(stream.len() + 1));
    let mut state = behind(fed, random);
    match random.below(8) {
        0 => state = random.bytes(LENGTH),
        1..=3 => spoil(&mut state, random),
        _ => {}
    }
    let step = Case::stream_read(state, part.to_vec(), MOST_BYTES);
    let need = step.answer().1.len();
    let room = match random.below(8) {
        0 => need.saturating_sub(1),
        1 => random.below(need + 1),
        2 | 3 => need,
        _ => room(random),
    };
    step.lent(room)
}

/// The state behind these bytes, but for its place.
fn behind(fed: &[u8], random: &mut Random) -> Vec<u8> {
    let told = at_once(0, fed);
    let held = told.cut.map_or(&[][..], |cut| &fed[cut as usize..]);
    let last = told.events.last().map(|(_, event)| event);
    let is_stopped = last == Some(&Event::Refused(KIND_UNKNOWN));
    let stopped = is_stopped && !random.once_in(4);
    state(place(random), stopped.into(), held.len() as u8, held)
}

/// Makes it a state that no call made, or another that calls make.
fn spoil(state: &mut [u8], random: &mut Random) {
    let byte = random.byte();
    match random.below(6) {
        0 => state[STOPPED] = random.pick(&[1, 2, 7, 0x80, byte]),
        1 => state[COUNT] = random.pick(&[0, 4, 5, 14, 15, 16, 0xFF, byte]),
        2 => state[COUNT] = random.below(MOST_HELD + 1) as u8,
        3 => state[HELD] = random.pick(&[0, FRAME, TICK, 3, byte]),
        4 => {
            let count = usize::from(state[COUNT]).min(MOST_HELD);
            let behind = random.bytes(MOST_HELD - count);
            state[HELD + count..].copy_from_slice(&behind);
        }
        _ => random.flip_bit(state),
    }
}
