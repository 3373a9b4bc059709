//! States with all kinds of places, and states that no call made.

use crate::case::Case;
use crate::frame::MOST_BYTES;
use crate::random::Random;
use crate::stream::draft::{frame_of, frame_record, state, tick_record};
use crate::stream::record::{FRAME, TICK};
use crate::stream::state::{LENGTH, MOST_HELD};

pub fn cases(random: &mut Random) -> Vec<Case> {
    let mut states = Vec::new();
    let places = PLACES.into_iter().chain(u64::MAX - 16..=u64::MAX);
    for place in places {
        states.push(state(place, 0, 0, &[]));
        states.push(state(place, 0, 14, &[FRAME, 0, 0]));
    }
    states.extend(counts(random));
    states.extend(stopped());
    states.push(vec![0xFF; LENGTH]);
    states.extend((0..20).map(|_| random.bytes(LENGTH)));
    let steps = states.iter().flat_map(|state| steps(state));
    steps.collect()
}

/// Each byte of a place tells, and so does what is carried from one to the next.
const PLACES: [u64; 9] = [
    0,
    1,
    0xFF,
    0x100,
    0xFFFF_FFFF,
    0x1_0000_0000,
    0x0102_0304_0506_0708,
    0x7FFF_FFFF_FFFF_FFFF,
    0x8000_0000_0000_0000,
];

/// The state before nothing, single bytes, and records alone, behind a tick and
/// not whole.
fn steps(state: &[u8]) -> Vec<Case> {
    let parts = [
        vec![],
        vec![0],
        vec![9],
        tick_record([0; 4]),
        frame_of(&[1, 2, 1], &[2]),
        frame_record(255, 1, &[]),
        [tick_record([0; 4]), frame_of(&[], &[5])].concat(),
        frame_of(&[1, 2, 1], &[2])[..9].to_vec(),
    ];
    let step = |part| Case::stream_read(state.to_vec(), part, MOST_BYTES);
    parts.map(step).into()
}

/// Bytes of known kinds and of others, with counts that their records can have
/// and with such as they cannot.
fn counts(random: &mut Random) -> Vec<Vec<u8>> {
    let mut list = Vec::new();
    for kind in [FRAME, TICK, 0, 3, 0xFF] {
        let bytes = [vec![kind, 2, 1], random.bytes(MOST_HELD - 3)].concat();
        for count in [0, 1, 2, 4, 5, 6, 13, 14, 15, 16, 128, 255] {
            list.push(state(77, 0, count, &bytes));
        }
    }
    list
}

/// With bytes that are held, with such as are not, and with none.
fn stopped() -> Vec<Vec<u8>> {
    let mut list = Vec::new();
    for byte in [1, 2, 7, 0x80, 0xFF] {
        list.push(state(88, byte, 0, &[]));
        list.push(state(88, byte, 14, &[FRAME, 12, 0]));
        list.push(state(88, byte, 4, &[TICK, 1, 1, 1, 1]));
        list.push(state(88, byte, 5, &[TICK, 1, 1, 1, 1]));
        list.push(state(88, byte, 200, &[3; MOST_HELD]));
    }
    list
}
