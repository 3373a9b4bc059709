//! Each first byte of J1850 with each length of response, read and written, with
//! the other faults that come before and behind a wrong count.

use super::{Archive, Outcome};
use crate::case::{Call, Case};
use crate::counts;
use crate::frame::draft::{damaged_at_end, first_run_of, response_of, starting_with, Draft};
use crate::frame::header::response_kind;
use crate::frame::MOST_BYTES;
use crate::random::Random;

/// The longest response; alone it is over twelve bytes.
const LONGEST: usize = MOST_BYTES + 1;

/// Every answer that reader and writer have, counted apart from those by chance.
pub fn classes() -> Vec<String> {
    let calls = [Call::Read, Call::Write];
    let of_calls = calls.into_iter().flat_map(counts::classes);
    of_calls.map(|class| of_each(&class)).collect()
}

fn of_each(class: &str) -> String {
    format!("each response {class}")
}

impl Outcome {
    pub fn compare_each_response(&mut self, archive: Archive, random: &mut Random) {
        for first_byte in 0..=255 {
            for case in cases(first_byte, random) {
                let class = of_each(&counts::class(case.call, case.answer().0));
                self.compare_one(archive, &class, &case, random);
            }
        }
    }
}

fn cases(first_byte: u8, random: &mut Random) -> Vec<Case> {
    let mut list = Vec::new();
    for length in 0..=LONGEST {
        list.extend(reads(first_byte, length, random));
        list.extend(writes(first_byte, length, random));
    }
    list
}

/// First runs of each length, so that up to twelve bytes in all the count is
/// what is refused, and above them the length; check bytes right and wrong.
fn reads(first_byte: u8, response: usize, random: &mut Random) -> Vec<Case> {
    let mut list = Vec::new();
    for length in 1..=MOST_BYTES {
        let first = first_run_of(first_byte, length, random);
        let response = response_of(first_byte, response, random);
        for first in [damaged_at_end(&first), first] {
            list.push(Case::read((first.clone(), response.clone())));
            if response_kind(first_byte) == Some(3) {
                list.push(Case::read((first, damaged_at_end(&response))));
            }
        }
    }
    list
}

/// Headers of both forms, frames from the shortest to those that are too long,
/// and outputs of no bytes and of enough.
fn writes(first_byte: u8, response: usize, random: &mut Random) -> Vec<Case> {
    let mut list = Vec::new();
    for data in [0, 1, 7, MOST_BYTES] {
        for header in [1, 3] {
            let draft = Draft {
                header: starting_with(first_byte, header, random),
                data: random.bytes(data),
                response: random.bytes(response),
            };
            list.push(Case::write(draft.clone(), 0));
            list.push(Case::write(draft, MOST_BYTES));
        }
    }
    list
}
