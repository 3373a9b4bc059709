use super::draft::{cuts_into_three, frame_of, frame_record, stream_of};
use super::refusal::*;
use super::state::State;
use super::step::{answer_to_end, answer_to_place, step};
use super::*;
use crate::random::Random;

const TICK: [u8; 5] = [2, 1, 2, 1, 2];

fn frame(first: &[u8], second: &[u8]) -> Event {
    Event::Frame((first.to_vec(), second.to_vec()))
}

fn told(events: &[(u64, Event)], cut: Option<u64>) -> Told {
    Told {
        events: events.to_vec(),
        cut,
    }
}

#[test]
fn frames_between_ticks() {
    let frames = [frame_of(&[1, 2, 3], &[9]), frame_of(&[], &[])];
    let stream = [&TICK[..], &frames[0], &TICK, &TICK, &frames[1], &TICK].concat();
    let events = [(5, frame(&[1, 2, 3], &[9])), (30, frame(&[], &[]))];
    assert_eq!(at_once(0, &stream), told(&events, None));
    assert_eq!(at_once(0, &[]), Told::default());
}

#[test]
fn lengths_and_unused_bytes() {
    for (first, second, is_wrong) in [
        (12, 0, false),
        (0, 12, false),
        (5, 7, false),
        (13, 0, true),
        (7, 6, true),
        (255, 1, true),
        (255, 255, true),
    ] {
        let stream = frame_record(first, second, &[7; 12]);
        let wrong = told(&[(0, Event::Refused(RECORD_WRONG))], None);
        assert_eq!(at_once(0, &stream) == wrong, is_wrong, "{first} {second}");
    }
    for place in 3..15 {
        let mut stream = frame_record(4, 3, &[]);
        stream[place] = 0x80;
        let is_frame = matches!(at_once(0, &stream).events[0].1, Event::Frame(_));
        assert_eq!(is_frame, place < 10, "{place}");
    }
}

#[test]
fn behind_61_the_next_record_behind_60_nothing() {
    let (wrong, sound) = (frame_record(12, 1, &[]), frame_of(&[8], &[]));
    let [refused_60, refused_61] = [KIND_UNKNOWN, RECORD_WRONG].map(Event::Refused);
    let stream = [&wrong[..], &sound, &[0], &sound, &TICK[..3]].concat();
    let events = [(0, refused_61), (15, frame(&[8], &[])), (30, refused_60)];
    assert_eq!(at_once(0, &stream), told(&events, None));
}

#[test]
fn the_end_inside_a_record() {
    let stream = [&TICK[..], &frame_record(255, 255, &[9; 12])].concat();
    for length in 0..stream.len() {
        let cut = match length {
            0 | 5 => None,
            1..5 => Some(0),
            _ => Some(5),
        };
        assert_eq!(at_once(0, &stream[..length]), told(&[], cut), "{length}");
    }
}

#[test]
fn places_are_modulo_2_to_the_64th() {
    let before = u64::MAX - 2;
    let stream = [&TICK[..], &frame_of(&[8], &[]), &[2]].concat();
    let whole = told(&[(2, frame(&[8], &[]))], Some(17));
    assert_eq!(at_once(before, &stream), whole);
    assert_eq!(in_parts(before, &stream, &[4, 6]), whole);
    assert_eq!(at_once(before, &[1; 3]).cut, Some(before));
}

/// What calls tell of the stream, cut at these places.
fn in_parts(before: u64, stream: &[u8], cuts: &[usize]) -> Told {
    let mut told = Told::default();
    let mut state = State::at(before);
    let mut taken = 0;
    for end in cuts.iter().copied().chain([stream.len()]) {
        while let Some(event) = next(&mut state, &stream[..end], &mut taken) {
            told.events.push(event);
        }
    }
    let bytes = state.bytes();
    told.cut = (answer_to_end(&bytes) == CUT.into()).then(|| answer_to_place(&bytes));
    told
}

/// One call over what is not taken; the event with the place of its record.
fn next(state: &mut State, fed: &[u8], taken: &mut usize) -> Option<(u64, Event)> {
    let step = step(state, &fed[*taken..]);
    *taken += step.taken;
    *state = State::of(&step.after.bytes());
    let event = step.event?;
    let length = match event {
        Event::Refused(KIND_UNKNOWN) => 1,
        _ => record::FRAME_LENGTH,
    };
    Some((state.place.wrapping_sub(length as u64), event))
}

#[test]
fn each_cut_tells_what_the_whole_tells() {
    let mut random = Random::new(60);
    for _ in 0..40 {
        let stream = stream_of(random.below(5), &mut random);
        let whole = at_once(0, &stream);
        for cuts in cuts_into_three(stream.len()) {
            assert_eq!(in_parts(0, &stream, &cuts), whole);
        }
        let each_byte: Vec<usize> = (1..stream.len()).collect();
        assert_eq!(in_parts(0, &stream, &each_byte), whole);
    }
}
