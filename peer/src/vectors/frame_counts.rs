//! Responses of wrong counts: each first byte, read and written, with the counts
//! beside those that its kind takes.

use super::frame_writes::LONGEST;
use crate::case::Case;
use crate::frame::draft::{first_run_of, response_of, Draft};
use crate::frame::header::{header_length, response_kind};
use crate::random::Random;

/// By kind; the writer takes one byte of kind 3.
const WRONG_COUNTS: [&[usize]; 4] = [&[1], &[0, 2], &[0], &[0, 1]];

pub fn cases(random: &mut Random) -> Vec<Case> {
    let mut list = Vec::new();
    for first_byte in 0..=255 {
        let kind = response_kind(first_byte);
        let counts = kind.map_or(&[][..], |kind| WRONG_COUNTS[usize::from(kind)]);
        for count in counts {
            let first = first_run_of(first_byte, header_length(first_byte) + 2, random);
            let response = response_of(first_byte, *count, random);
            list.push(Case::read((first, response)));
            let draft = Draft::of_lengths(first_byte, 1, *count, random);
            list.push(Case::write(draft, LONGEST));
        }
    }
    list
}
