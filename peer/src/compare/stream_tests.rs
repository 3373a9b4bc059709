//! Bent rules of the stream in place of the archive: each way of comparing finds
//! what it is for.

use super::*;
use crate::compare::tests::{assert_each_found, outcome, Answer, Bend};
use crate::stream::state::{COUNT, HELD, LENGTH, STOPPED};

fn walks(archive: Archive, count: u64, seed: u64) -> Outcome {
    let mut random = Random::new(seed);
    let outcome = Outcome::new("walk", Vec::new());
    outcome.run(count, |outcome| {
        outcome.compare_random_walk(archive, &mut random)
    })
}

fn steps(archive: Archive, count: u64, seed: u64) -> Outcome {
    let mut random = Random::new(seed);
    let outcome = Outcome::new("step", Vec::new());
    outcome.run(count, |outcome| outcome.compare_step(archive, &mut random))
}

fn all_cuts(archive: Archive, _: u64, seed: u64) -> Outcome {
    Outcome::new("cuts", Vec::new()).with_all_cuts(archive, &mut Random::new(seed))
}

/// What a call wrote with one byte bent.
fn with_bent_byte((number, mut written): Answer, place: usize, byte: u8) -> Answer {
    written[place] = byte;
    (number, written)
}

#[test]
fn bent_readers() {
    let bends: [Bend; 3] = [
        // a fault is told before its record is whole
        |call, inputs, answer| match (call, answer.0, inputs) {
            (Call::StreamRead, 0, [state, [1, 13..=255, ..]]) if state[STOPPED..HELD] == [0; 2] => {
                (61, Vec::new())
            }
            _ => answer,
        },
        // the lengths together are taken modulo 256
        |call, inputs, answer| match (call, answer.0, inputs) {
            (Call::StreamRead, 61, [_, [1, first, second, ..]])
                if first.checked_add(*second).is_none() =>
            {
                (0x0100, Vec::new())
            }
            _ => answer,
        },
        // a frame of no bytes is none
        |call, _, answer| match (call, answer.0) {
            (Call::StreamRead, 0x0100) => (0, Vec::new()),
            _ => answer,
        },
    ];
    assert_each_found(walks, &bends);
    assert_each_found(steps, &bends);
}

#[test]
fn bent_outputs() {
    let bends: [Bend; 3] = [
        |call, _, answer| match (call, answer.0) {
            (Call::StreamRead, 8) => (8, vec![0x55]),
            _ => answer,
        },
        // not for want of room
        |call, _, answer| match (call, answer.0) {
            (Call::StreamRead, 0x0100) => (8, Vec::new()),
            _ => answer,
        },
        |call, _, answer| match (call, answer.1.len()) {
            (Call::StreamRead, 1..) => (answer.0, [answer.1, vec![0x55]].concat()),
            _ => answer,
        },
    ];
    assert_each_found(walks, &bends);
    assert_each_found(steps, &bends);
}

#[test]
fn bent_states() {
    let bends: [Bend; 4] = [
        // 60 stops nothing
        |call, _, answer| match call {
            Call::StreamAdvance => with_bent_byte(answer, STOPPED, 0),
            _ => answer,
        },
        // what is behind the bytes held is left as it is
        |call, _, answer| match (call, &answer.1[..]) {
            (Call::StreamAdvance, [.., 0]) => with_bent_byte(answer, LENGTH - 1, 1),
            _ => answer,
        },
        // the place goes no higher than it can
        |call, inputs, answer| match (call, inputs) {
            (Call::StreamAdvance, [[0xFF, ..], _]) if answer.1[0] == 0 => {
                (answer.0, [&[0xFF; STOPPED], &answer.1[STOPPED..]].concat())
            }
            _ => answer,
        },
        // the last byte of a tick is not taken
        |call, inputs, answer| match (call, inputs) {
            (Call::StreamAdvance, [_, [2, _, _, _, _]]) => (answer.0.min(4), answer.1),
            _ => answer,
        },
    ];
    assert_each_found(walks, &bends);
    assert_each_found(steps, &bends);
}

#[test]
fn bent_ends_and_places() {
    let bends: [Bend; 4] = [
        |call, _, answer| match (call, answer.0) {
            (Call::StreamEnd, 62) => (0, Vec::new()),
            _ => answer,
        },
        |call, _, answer| match (call, answer.0) {
            (Call::StreamEnd, 62) => (62 | 1 << 8, Vec::new()),
            _ => answer,
        },
        // of the next record, though one is begun
        |call, inputs, answer| match (call, inputs) {
            (Call::StreamPlace, [state]) => (answer.0.wrapping_add(state[COUNT].into()), answer.1),
            _ => answer,
        },
        |call, _, answer| match call {
            Call::StreamPlace => (answer.0.swap_bytes(), answer.1),
            _ => answer,
        },
    ];
    assert_each_found(walks, &bends);
    assert_each_found(steps, &bends);
}

#[test]
fn bent_rules_of_states_that_no_call_made() {
    let bends: [Bend; 3] = [
        // what takes nothing writes nothing
        |call, inputs, answer| match (call, answer.0) {
            (Call::StreamAdvance, 0) => (0, inputs[0].to_vec()),
            _ => answer,
        },
        // a count that is too large counts as none
        |call, inputs, answer| match (call, inputs) {
            (Call::StreamAdvance, [state, part]) if state[COUNT] > 14 => {
                let (_, none) = with_bent_byte((0, state.to_vec()), COUNT, 0);
                call.answer(&[&none, part], 0)
            }
            _ => answer,
        },
        // a record begun counts, though reading has stopped
        |call, inputs, answer| match (call, inputs) {
            (Call::StreamEnd, [state]) if !State::of(state).held.is_empty() => (62, Vec::new()),
            _ => answer,
        },
    ];
    assert_each_found(steps, &bends);
}

/// The cut one byte before the end of a frame alone.
#[test]
fn one_bent_cut_of_all() {
    let bend: Bend = |call, inputs, answer| match (call, inputs) {
        (Call::StreamRead, [state, [_]]) if state[COUNT] == 14 => (0, Vec::new()),
        _ => answer,
    };
    let right: Bend = |_, _, answer| answer;
    let [right, bent] = [right, bend].map(|bend| outcome(all_cuts, bend).summary());
    assert!(
        right.ends_with(" cuts into three parts, 0 differ"),
        "{right}"
    );
    assert!(right.contains("200 streams"), "{right}");
    assert!(!bent.ends_with(" 0 differ"), "{bent}");
}
