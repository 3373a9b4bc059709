//! Whole streams, each with all its cuts into two and three parts and one byte at
//! a time.

use crate::case::Case;
use crate::frame::MOST_BYTES;
use crate::random::Random;
use crate::stream::draft::{cuts_into_three, frame_of, frame_record, tick_record};
use crate::stream::state::State;
use crate::stream::step::answers_to_next;

pub fn cases(random: &mut Random) -> Vec<Case> {
    let mut list = Vec::new();
    for stream in streams(random) {
        list.extend(calls(&stream, &[]));
        for end in 0..=stream.len() {
            list.extend(calls(&stream, &[end]));
        }
        for cuts in cuts_into_three(stream.len()) {
            list.extend(calls(&stream, &cuts));
        }
        let each_byte: Vec<usize> = (1..stream.len()).collect();
        list.extend(calls(&stream, &each_byte));
    }
    list
}

/// The calls over the parts, each with the state that the one before it wrote
/// and the bytes that it did not take, and a last one for the state at the end.
fn calls(stream: &[u8], cuts: &[usize]) -> Vec<Case> {
    let mut list = Vec::new();
    let mut state = State::default().bytes();
    let mut taken = 0;
    for end in cuts.iter().copied().chain([stream.len()]) {
        let mut is_told = true;
        while is_told {
            let part = &stream[taken..end];
            list.push(Case::stream_read(state.clone(), part.to_vec(), MOST_BYTES));
            let (told, advanced) = answers_to_next(&state, part, MOST_BYTES);
            is_told = told.0 != 0;
            taken += advanced.0 as usize;
            state = advanced.1;
        }
    }
    list.push(Case::stream_read(state, Vec::new(), MOST_BYTES));
    list
}

/// Frames beside a tick; an end inside a frame; both faults; an unknown kind
/// before a frame; the shortest and the longest frame and an end inside a tick;
/// and bytes that look like records.
fn streams(random: &mut Random) -> [Vec<u8>; 6] {
    let mut frame = |first, second| frame_of(&random.bytes(first), &random.bytes(second));
    let tick = tick_record([0, 0, 0, 1]);
    let lengths_over = frame_record(7, 6, &[9; 12]);
    let unused_byte = frame_record(3, 1, &[1, 2, 3, 4, 0, 0, 0, 0, 0, 0, 0, 9]);
    let like_records = frame_record(9, 3, &[2, 2, 2, 2, 2, 1, 0, 0, 1, 12, 0, 2]);
    [
        vec![frame(5, 1), tick.clone(), frame(8, 0)],
        vec![tick.repeat(3), frame(4, 4), frame(6, 2)[..7].to_vec()],
        vec![lengths_over, unused_byte.clone(), frame(2, 2)],
        vec![tick.clone(), frame(0, 3), vec![3], frame(1, 1)],
        vec![frame(0, 0), frame(12, 0), tick[..3].to_vec()],
        vec![like_records, tick_record([1; 4]), unused_byte, vec![1]],
    ]
    .map(|records| records.concat())
}
