use super::*;
use crate::random::Random;
use crate::stream::draft::{frame_of, frame_record, state, stream_of};
use crate::stream::record::is_begun;
use crate::stream::state::LENGTH;

const FRESH: [u8; LENGTH] = [0; LENGTH];

#[test]
fn the_words_of_read() {
    let frame = frame_of(&[0x48, 0x6B, 0x10], &[9]);
    let runs = vec![0x48, 0x6B, 0x10, 9];
    assert_eq!(answer_to_read(&FRESH, &frame, 4), (0x0103_0100, runs));
    assert_eq!(answer_to_read(&FRESH, &frame, 3), (8, vec![]));
    assert_eq!(
        answer_to_read(&FRESH, &frame_of(&[], &[]), 0),
        (0x0100, vec![])
    );
    assert_eq!(answer_to_read(&FRESH, &[0, 1, 2], 0), (60, vec![]));
    assert_eq!(
        answer_to_read(&FRESH, &frame_record(12, 1, &[]), 0),
        (61, vec![])
    );
    assert_eq!(
        answer_to_read(&FRESH, &frame_record(12, 1, &[])[..14], 0),
        (0, vec![])
    );
    assert_eq!(answer_to_read(&FRESH, &[2; 10], 0), (0, vec![]));
}

#[test]
fn a_step_ends_with_its_event() {
    let frame = frame_of(&[1], &[2]);
    let part = [&[2; 5][..], &frame, &frame].concat();
    assert_eq!(answer_to_advance(&FRESH, &part), (20, state(20, 0, 0, &[])));
    let begun = state(20, 0, 2, &frame[..2]);
    assert_eq!(
        answer_to_advance(&FRESH, &part[..7]),
        (7, state(5, 0, 2, &frame[..2]))
    );
    assert_eq!(
        answer_to_advance(&begun, &frame[2..]),
        (13, state(35, 0, 0, &[]))
    );
    assert_eq!(answer_to_advance(&begun, &[]), (0, begun));
}

/// Of a state that no call made too.
#[test]
fn after_8_the_state_is_as_it_was() {
    let frame = frame_of(&[1, 2], &[3]);
    let behind_tick = [&[2; 5][..], &frame].concat();
    let odd = state(30, 0, 255, &frame[..14]);
    for (given, part, after) in [
        (FRESH.to_vec(), &behind_tick[..], state(20, 0, 0, &[])),
        (odd, &frame[14..], state(45, 0, 0, &[])),
    ] {
        for room in 0..3 {
            let refused = ((8, vec![]), (0, given.clone()));
            assert_eq!(answers_to_next(&given, part, room), refused);
        }
        let told = (0x0102_0100, vec![1, 2, 3]);
        let advanced = (part.len() as u64, after);
        assert_eq!(answers_to_next(&given, part, 3), (told, advanced));
    }
}

#[test]
fn ticks_may_fill_the_part() {
    let ticks = [2; 500];
    assert_eq!(
        answer_to_advance(&FRESH, &ticks),
        (500, state(500, 0, 0, &[]))
    );
    let begun = state(500, 0, 4, &[2; 4]);
    assert_eq!(
        answer_to_advance(&begun, &ticks),
        (500, state(1000, 0, 4, &[2; 4]))
    );
}

#[test]
fn behind_60_nothing_is_taken_or_given() {
    let (taken, stopped) = answer_to_advance(&state(7, 0, 0, &[]), &[3, 1, 2]);
    assert_eq!((taken, &stopped), (1, &state(8, 1, 0, &[])));
    let frame = frame_of(&[1], &[2]);
    assert_eq!(answer_to_read(&stopped, &frame, 12), (0, vec![]));
    assert_eq!(answer_to_advance(&stopped, &frame), (0, stopped.clone()));
    assert_eq!(answer_to_end(&stopped), 0);
}

#[test]
fn the_end_and_its_place() {
    assert_eq!(answer_to_end(&FRESH), 0);
    let begun = state(0x0102_0304_0506_0708, 0, 1, &[1]);
    assert_eq!(begun[..8], [1, 2, 3, 4, 5, 6, 7, 8]);
    assert_eq!(answer_to_end(&begun), 62);
    assert_eq!(answer_to_place(&begun), 0x0102_0304_0506_0708);
}

#[test]
fn places_are_modulo_2_to_the_64th() {
    let near_top = state(u64::MAX - 2, 0, 0, &[]);
    assert_eq!(
        answer_to_advance(&near_top, &[0]).1,
        state(u64::MAX - 1, 1, 0, &[])
    );
    assert_eq!(answer_to_advance(&near_top, &[2; 5]).1, state(2, 0, 0, &[]));
    let begun = answer_to_advance(&near_top, &[1; 14]).1;
    assert_eq!(begun, state(u64::MAX - 2, 0, 14, &[1; 14]));
    assert_eq!(answer_to_advance(&begun, &[0]), (1, state(12, 0, 0, &[])));
}

/// A state that no call made, and the one that it counts as.
#[test]
fn states_that_no_call_made() {
    let at = |held: &[u8]| state(9, 0, held.len() as u8, held);
    for (odd, same) in [
        (state(9, 0, 200, &[1; 14]), at(&[1; 14])),
        (state(9, 0, 200, &[2; 14]), at(&[])),
        (state(9, 0, 5, &[2; 5]), at(&[])),
        (state(9, 0, 2, &[2; 14]), at(&[2, 2])),
        (state(9, 0, 3, &[3, 1, 2]), at(&[])),
        (state(9, 0, 0, &[1; 14]), at(&[])),
        (state(9, 7, 0, &[]), state(9, 1, 0, &[])),
        (state(9, 7, 3, &[1; 14]), state(9, 1, 3, &[1; 3])),
    ] {
        assert_eq!(answer_to_advance(&odd, &[]), (0, same.clone()));
        for part in [&[1; 30][..], &[2; 9], &[0]] {
            assert_eq!(
                answer_to_read(&odd, part, 12),
                answer_to_read(&same, part, 12)
            );
            assert_eq!(
                answer_to_advance(&odd, part),
                answer_to_advance(&same, part)
            );
        }
        assert_eq!(answer_to_end(&odd), answer_to_end(&same));
    }
    assert_eq!(answer_to_end(&state(9, 7, 3, &[1; 14])), 0);
}

#[test]
fn what_is_written_is_read_back() {
    let mut random = Random::new(62);
    for _ in 0..2000 {
        let any = random.bytes(LENGTH);
        let (_, after) = answer_to_advance(&any, &stream_of(2, &mut random));
        let state = State::of(&after);
        assert_eq!(state.bytes(), after);
        assert!(state.held.is_empty() || is_begun(&state.held));
    }
}
