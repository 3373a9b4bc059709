//! Random cases for the readers and writers: about half accepted, and every
//! refusal often.

use super::iso_random;
use crate::case::Case;
use crate::frame::bus::{Bus, Runs};
use crate::frame::check_byte::check_byte;
use crate::frame::draft::Draft;
use crate::frame::header::{header_length, response_kind};
use crate::frame::MOST_BYTES;
use crate::random::Random;

/// Now and then a run is up to this long.
const LONG: usize = 300;
/// Seldom a run is a little longer than this.
const VERY_LONG: usize = 65_536;

pub fn case(bus: Bus, random: &mut Random) -> Case {
    if random.once_in(2) {
        Case::read_on(bus, runs(bus, random))
    } else {
        write_case(bus, random)
    }
}

/// The runs that the bus has, mostly a frame or message.
pub fn runs(bus: Bus, random: &mut Random) -> Runs {
    let mut draft = Draft::random_on(bus, random);
    if random.once_in(4) {
        spoil_parts(bus, &mut draft, random);
    }
    let mut runs = draft.runs_on(bus);
    match random.below(20) {
        0..=5 => spoil_runs(bus, &mut runs, random),
        6 => {
            spoil_runs(bus, &mut runs, random);
            spoil_runs(bus, &mut runs, random);
        }
        7 => runs = (random_run(random), random_response(bus, random)),
        _ => {}
    }
    runs
}

fn write_case(bus: Bus, random: &mut Random) -> Case {
    let mut draft = Draft::random_on(bus, random);
    match random.below(20) {
        0..=5 => spoil_parts(bus, &mut draft, random),
        6 => {
            spoil_parts(bus, &mut draft, random);
            spoil_parts(bus, &mut draft, random);
        }
        7 => {
            draft = Draft {
                header: random_run(random),
                data: random_run(random),
                response: random_response(bus, random),
            };
        }
        _ => {}
    }
    let out_length = out_length(draft.length_on(bus), random);
    Case::write_on(bus, draft, out_length)
}

/// One fault in the parts.
fn spoil_parts(bus: Bus, draft: &mut Draft, random: &mut Random) {
    match bus {
        Bus::J1850 => spoil_frame_parts(draft, random),
        Bus::Iso9141 => iso_random::spoil_parts(draft, random),
    }
}

/// One fault in the runs.
pub fn spoil_runs(bus: Bus, runs: &mut Runs, random: &mut Random) {
    match bus {
        Bus::J1850 => spoil_frame(runs, random),
        Bus::Iso9141 => iso_random::spoil_message(&mut runs.0, random),
    }
}

/// One in five below the need, the rest at it or above.
fn out_length(need: usize, random: &mut Random) -> usize {
    match random.below(10) {
        0 => need - 1,
        1 => random.below(need),
        2..=4 => need,
        5 => need + 1,
        _ => need + random.below(24),
    }
}

/// A run of random bytes, seldom long.
fn random_run(random: &mut Random) -> Vec<u8> {
    let length = match random.below(1000) {
        0 => VERY_LONG + random.below(15),
        1..=50 => random.below(LONG + 1),
        _ => random.below(15),
    };
    random.bytes(length)
}

/// Of random bytes too, on the bus that has one.
fn random_response(bus: Bus, random: &mut Random) -> Vec<u8> {
    match bus {
        Bus::J1850 => random_run(random),
        Bus::Iso9141 => Vec::new(),
    }
}

/// Type, count of the response, length or header.
fn spoil_frame_parts(draft: &mut Draft, random: &mut Random) {
    match random.below(5) {
        0 => draft.response = few_bytes(random),
        1 => {
            let wrong = random.pick(&[0, 1, 2, 3, 3, 4, 5]);
            draft.header.resize(wrong, 0x6B);
        }
        2 if !draft.header.is_empty() => draft.header[0] = unassigned(draft.header[0], random),
        2 | 3 => lengthen(&mut draft.data, draft.header.len(), random),
        _ => lengthen(
            &mut draft.response,
            draft.header.len() + draft.data.len(),
            random,
        ),
    }
}

fn few_bytes(random: &mut Random) -> Vec<u8> {
    let length = random.below(4);
    random.bytes(length)
}

fn unassigned(first_byte: u8, random: &mut Random) -> u8 {
    first_byte & 0xF0 | random.pick(&[5, 6, 7])
}

/// Makes the frame a little longer than it may be, or exactly as long, or
/// now and then much longer.
pub fn lengthen(run: &mut Vec<u8>, others: usize, random: &mut Random) {
    let length = match random.below(1000) {
        0 => VERY_LONG + random.below(15),
        1..=50 => random.below(LONG + 1),
        _ => (MOST_BYTES + random.below(4)).saturating_sub(others + 1),
    };
    let added = random.bytes(length.saturating_sub(run.len()));
    run.extend(added);
}

/// A bit, a byte, the place of EOD, the end of a run, bytes more behind the
/// response, or its check byte.
fn spoil_frame(runs: &mut Runs, random: &mut Random) {
    match random.below(9) {
        0 => random.flip_bit(&mut runs.0),
        1 => random.flip_bit(&mut runs.1),
        2 => move_end_of_data(runs, random),
        3 => runs.0.truncate(random.below(4)),
        4 => runs.1.truncate(random.below(3)),
        5 => std::mem::swap(&mut runs.0, &mut runs.1),
        6 => set_bare_header(runs, random),
        7 => runs.1.extend(few_bytes(random)),
        _ => set_check_over_frame(runs, random),
    }
}

fn move_end_of_data(runs: &mut Runs, random: &mut Random) {
    let mut whole = [&runs.0[..], &runs.1].concat();
    let response = whole.split_off(random.below(whole.len() + 1));
    *runs = (whole, response);
}

/// Leaves the header alone, without a check byte.
fn set_bare_header(runs: &mut Runs, random: &mut Random) {
    if let Some(first_byte) = runs.0.first() {
        let length = header_length(*first_byte);
        runs.0.resize(length, random.byte());
    }
}

/// The check byte of a kind 3 response over what comes before it too.
fn set_check_over_frame(runs: &mut Runs, random: &mut Random) {
    let (first, response) = (&runs.0, &mut runs.1);
    let is_kind_3 = first
        .first()
        .is_some_and(|byte| response_kind(*byte) == Some(3));
    if !is_kind_3 || response.is_empty() {
        return random.flip_bit(response);
    }
    let data = response.len() - 1;
    let before = if random.once_in(2) {
        first.len()
    } else {
        first.len() - 1
    };
    response[data] = check_byte(&[&first[..before], &response[..data]].concat());
}
