//! Records in one part: kinds, lengths, unused bytes, rooms and ticks.

use super::stream::{BUFFER, MOST_PART};
use crate::case::Case;
use crate::frame::MOST_BYTES;
use crate::random::Random;
use crate::stream::draft::{frame_of, frame_record, state, tick_record};
use crate::stream::record::{FRAME_LENGTH, RUNS_PLACE, TICK, TICK_LENGTH};
use crate::stream::state::State;

pub fn cases(random: &mut Random) -> Vec<Case> {
    let groups = [
        every_kind(),
        every_length(random),
        lengths_beyond(random),
        every_room(random),
        ticks(),
        frame_behind_ticks(random),
        faults_cut(),
        one_behind_another(random),
    ];
    groups.into_iter().flatten().collect()
}

/// A step from a fresh state, lent enough.
pub fn fresh(part: &[u8]) -> Case {
    Case::stream_read(State::default().bytes(), part.to_vec(), MOST_BYTES)
}

/// Bytes of which none is zero.
fn bytes(length: usize, random: &mut Random) -> Vec<u8> {
    (0..length).map(|_| random.byte().max(1)).collect()
}

/// Each kind byte before zeros, and as the last byte behind a tick.
fn every_kind() -> Vec<Case> {
    let mut list = Vec::new();
    for kind in 0..=255 {
        let mut record = vec![0; FRAME_LENGTH];
        record[0] = kind;
        list.push(fresh(&record));
        list.push(fresh(&[tick_record([1; 4]), vec![kind]].concat()));
    }
    list
}

/// Each two lengths of up to thirteen together: unused bytes zero, and each of
/// them in its turn not.
fn every_length(random: &mut Random) -> Vec<Case> {
    let mut list = Vec::new();
    for total in 0..=MOST_BYTES + 1 {
        let used = total.min(MOST_BYTES);
        for first in 0..=total {
            let lengths = (first as u8, (total - first) as u8);
            let sound = frame_record(lengths.0, lengths.1, &bytes(used, random));
            list.push(fresh(&sound));
            for place in RUNS_PLACE + used..FRAME_LENGTH {
                let mut wrong = sound.clone();
                wrong[place] = random.pick(&[0x01, 0x80, 0xFF]);
                list.push(fresh(&wrong));
            }
        }
    }
    list
}

/// Lengths over twelve, among them such as are less modulo 256, before zeros and
/// before other bytes.
fn lengths_beyond(random: &mut Random) -> Vec<Case> {
    let mut list = Vec::new();
    for (first, second) in [
        (12, 12),
        (13, 13),
        (0, 255),
        (255, 0),
        (1, 255),
        (255, 1),
        (6, 250),
        (128, 128),
        (244, 12),
        (12, 244),
        (244, 24),
        (255, 13),
        (255, 14),
        (255, 255),
    ] {
        list.push(fresh(&frame_record(first, second, &[])));
        list.push(fresh(&frame_record(first, second, &bytes(12, random))));
    }
    list
}

/// A frame of each total with each room, and what needs no room in none.
fn every_room(random: &mut Random) -> Vec<Case> {
    let mut list = Vec::new();
    for total in 0..=MOST_BYTES {
        let first = random.between(0, total);
        let runs = bytes(total, random);
        let frame = fresh(&frame_of(&runs[..first], &runs[first..]));
        list.extend((0..=BUFFER).map(|room| frame.clone().lent(room)));
    }
    let wrong = frame_record(12, 1, &[]);
    for part in [&[][..], &[0], &wrong, &wrong[..14], &[TICK; 64]] {
        list.push(fresh(part).lent(0));
    }
    list
}

/// Ticks that fill the part, or all but the beginning of the next; a tick may
/// have begun before it.
fn ticks() -> Vec<Case> {
    let mut list = Vec::new();
    let ticks = tick_record([1, 0, 3, 0xFF]).repeat(MOST_PART / TICK_LENGTH + 2);
    for held in 0..TICK_LENGTH {
        for length in (0..=11).chain(MOST_PART - 6..=MOST_PART) {
            let state = state(0, 0, held as u8, &ticks[..held]);
            let part = ticks[held..held + length].to_vec();
            list.push(Case::stream_read(state, part, MOST_BYTES));
        }
    }
    list
}

/// As many ticks as leave room for a frame, which is whole or needs one byte.
fn frame_behind_ticks(random: &mut Random) -> Vec<Case> {
    let mut list = Vec::new();
    let frame = frame_of(&bytes(7, random), &bytes(2, random));
    for count in 0..=(MOST_PART - FRAME_LENGTH) / TICK_LENGTH {
        let part = [tick_record([1; 4]).repeat(count), frame.clone()].concat();
        list.push(fresh(&part));
        list.push(fresh(&part[..part.len() - 1]));
    }
    list
}

/// Faults that stand in the first bytes of a record, told with its last byte.
fn faults_cut() -> Vec<Case> {
    let mut list = Vec::new();
    for record in [frame_record(255, 255, &[]), frame_record(0, 0, &[1; 12])] {
        for length in 1..FRAME_LENGTH {
            list.push(fresh(&record[..length]));
            let begun = state(40, 0, length as u8, &record[..length]);
            for end in [FRAME_LENGTH - 1, FRAME_LENGTH] {
                let part = record[length..end].to_vec();
                list.push(Case::stream_read(begun.clone(), part, MOST_BYTES));
            }
        }
    }
    list
}

/// A record of each class before one of each: the first that is no tick is told
/// of.
fn one_behind_another(random: &mut Random) -> Vec<Case> {
    let records = [
        frame_of(&bytes(3, random), &bytes(4, random)),
        frame_of(&bytes(12, random), &[]),
        frame_record(7, 6, &bytes(12, random)),
        frame_record(1, 1, &bytes(3, random)),
        tick_record([1; 4]),
        vec![0],
        vec![3],
    ];
    let mut list = Vec::new();
    for first in &records {
        for second in &records {
            list.push(fresh(&[&first[..], second].concat()));
        }
    }
    list
}
