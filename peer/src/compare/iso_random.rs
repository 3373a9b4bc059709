//! Faults of messages of ISO 9141-2.

use super::frame_random::lengthen;
use crate::frame::check_byte::check_byte;
use crate::frame::draft::Draft;
use crate::frame::iso::{sum, HEADER_LENGTH};
use crate::random::Random;

/// One of H and K turned over, or both.
const WRONG_BITS: [u8; 3] = [0x08, 0x10, 0x18];

/// One fault in the parts: first byte, header or length.
pub fn spoil_parts(draft: &mut Draft, random: &mut Random) {
    match random.below(3) {
        0 => {
            let wrong = random.pick(&[0, 1, 2, 4, 5]);
            draft.header.resize(wrong, 0x6A);
        }
        1 if !draft.header.is_empty() => draft.header[0] ^= random.pick(&WRONG_BITS),
        _ => lengthen(&mut draft.data, draft.header.len(), random),
    }
}

/// One fault in the run, or what is nearly one: a bit, a byte, its end, two
/// bytes in each other's place, which keeps the sum, or a check byte of another
/// rule.
pub fn spoil_message(run: &mut Vec<u8>, random: &mut Random) {
    match random.below(8) {
        0 => random.flip_bit(run),
        1 => run.truncate(random.below(5)),
        2 => {
            let added = random.between(1, 4);
            run.extend(random.bytes(added));
        }
        3 => set_first_byte(run, random),
        4 => set_check_byte(run, check_byte),
        5 => set_check_byte(run, |bytes| sum(&bytes[HEADER_LENGTH.min(bytes.len())..])),
        6 if !run.is_empty() => {
            let (a, b) = (random.below(run.len()), random.below(run.len()));
            run.swap(a, b);
        }
        _ if !run.is_empty() => {
            let place = random.below(run.len());
            run[place] = random.byte();
        }
        _ => {}
    }
}

/// H and K wrong, and the sum right again.
fn set_first_byte(run: &mut [u8], random: &mut Random) {
    if let Some(first) = run.first_mut() {
        *first ^= random.pick(&WRONG_BITS);
    }
    set_check_byte(run, sum);
}

fn set_check_byte(run: &mut [u8], check: fn(&[u8]) -> u8) {
    if let Some((last, before)) = run.split_last_mut() {
        *last = check(before);
    }
}
