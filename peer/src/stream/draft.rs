//! Drafts of records, streams and states, from which cases are made.

use super::record::{FRAME, FRAME_LENGTH, RUNS_PLACE, TICK, TICK_LENGTH};
use super::state::{State, COUNT, HELD, STOPPED};
use crate::frame::MOST_BYTES;
use crate::random::Random;

/// A frame record with these lengths, its bytes those given and then zeros. It
/// need not be without fault.
pub fn frame_record(first: u8, second: u8, bytes: &[u8]) -> Vec<u8> {
    let mut record = [&[FRAME, first, second], bytes].concat();
    assert!(
        record.len() <= FRAME_LENGTH,
        "a frame has twelve bytes at most"
    );
    record.resize(FRAME_LENGTH, 0);
    record
}

/// A frame record without fault.
pub fn frame_of(first: &[u8], second: &[u8]) -> Vec<u8> {
    let bytes = [first, second].concat();
    frame_record(first.len() as u8, second.len() as u8, &bytes)
}

pub fn tick_record(body: [u8; TICK_LENGTH - 1]) -> Vec<u8> {
    [&[TICK], &body[..]].concat()
}

/// A state of these parts, whether a call makes such a one or not.
pub fn state(place: u64, stopped: u8, count: u8, held: &[u8]) -> Vec<u8> {
    let mut bytes = State::at(place).bytes();
    bytes[STOPPED] = stopped;
    bytes[COUNT] = count;
    bytes[HELD..HELD + held.len()].copy_from_slice(held);
    bytes
}

/// So many records, frames and ticks mostly; one stream in three is cut.
pub fn stream_of(count: usize, random: &mut Random) -> Vec<u8> {
    let records = (0..count).map(|_| random_record(random));
    let mut stream = records.collect::<Vec<_>>().concat();
    if random.once_in(3) {
        stream.truncate(random.below(stream.len() + 1));
    }
    stream
}

/// The ends of the first and the second part, for each cut of so many bytes into
/// three.
pub fn cuts_into_three(length: usize) -> Vec<[usize; 2]> {
    let before = |second| (0..=second).map(move |first| [first, second]);
    (0..=length).flat_map(before).collect()
}

/// Seldom an unknown kind, alone.
fn random_record(random: &mut Random) -> Vec<u8> {
    match random.below(24) {
        0 => vec![unknown_kind(random)],
        1..=6 => faulty_frame(random),
        7..=14 => {
            let body = telling_bytes(TICK_LENGTH - 1, random);
            [vec![TICK], body].concat()
        }
        _ => random_frame(random),
    }
}

/// One in two is beside the known ones.
fn unknown_kind(random: &mut Random) -> u8 {
    match random.once_in(2) {
        true => random.pick(&[0, FRAME | 0x80, TICK + 1, 0xFF]),
        false => random.between(3, 255) as u8,
    }
}

/// Without fault: each total is as likely as another.
fn random_frame(random: &mut Random) -> Vec<u8> {
    let (first, second) = random_lengths(MOST_BYTES, random);
    let bytes = telling_bytes(first + second, random);
    frame_record(first as u8, second as u8, &bytes)
}

/// Two lengths of at most `most` together.
fn random_lengths(most: usize, random: &mut Random) -> (usize, usize) {
    let total = random.between(0, most);
    let first = random.between(0, total);
    (first, total - first)
}

/// Lengths over twelve together, or an unused byte that is not zero.
fn faulty_frame(random: &mut Random) -> Vec<u8> {
    if random.once_in(2) {
        let (first, second) = lengths_over(random);
        let used = random.below(MOST_BYTES + 1);
        return frame_record(first, second, &telling_bytes(used, random));
    }
    let (first, second) = random_lengths(MOST_BYTES - 1, random);
    let bytes = telling_bytes(first + second, random);
    let mut record = frame_record(first as u8, second as u8, &bytes);
    let used = RUNS_PLACE + first + second;
    random.flip_bit(&mut record[used..]);
    record
}

/// A little over twelve, over twelve but not modulo 256, or any.
fn lengths_over(random: &mut Random) -> (u8, u8) {
    let over = match random.below(3) {
        0 => random.between(MOST_BYTES + 1, MOST_BYTES + 3),
        1 => random.between(256, 256 + MOST_BYTES),
        _ => random.between(MOST_BYTES + 1, 2 * 255),
    };
    let first = random.between(over.saturating_sub(255), over.min(255));
    (first as u8, (over - first) as u8)
}

/// Bytes that would tell of a record at the wrong place, as often as not.
fn telling_bytes(length: usize, random: &mut Random) -> Vec<u8> {
    let byte = |random: &mut Random| match random.once_in(2) {
        true => random.pick(&[0, FRAME, TICK]),
        false => random.byte(),
    };
    (0..length).map(|_| byte(random)).collect()
}
