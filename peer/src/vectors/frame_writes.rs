//! The writer's cases.

use crate::case::Case;
use crate::frame::check_byte::PUBLISHED;
use crate::frame::draft::{room, starting_with, Draft, FIRST_BYTES};
use crate::frame::header::{header_length, response_kind};
use crate::random::Random;

/// The longest output that can be lent.
pub const LONGEST: usize = 32;

pub fn cases(random: &mut Random) -> Vec<Case> {
    let groups = [
        every_first_byte(random),
        every_split(random),
        lent_outputs(random),
        other_headers(random),
        several_faults(random),
        published(random),
        sound_frames(random),
    ];
    groups.into_iter().flatten().collect()
}

/// Each first byte with the header it asks for and with the other form's.
fn every_first_byte(random: &mut Random) -> Vec<Case> {
    let mut list = Vec::new();
    for first_byte in 0..=255 {
        let draft = Draft::random_of(first_byte, random);
        let mut other = draft.clone();
        other.header = starting_with(first_byte, 4 - header_length(first_byte), random);
        if response_kind(first_byte).is_none() {
            let mut answered = draft.clone();
            answered.response = random.bytes(1);
            list.push(Case::write(answered, LONGEST));
        }
        list.push(Case::write(draft, LONGEST));
        list.push(Case::write(other, LONGEST));
    }
    list
}

/// Each total from 0 to 14 in each split between the three runs. A header of
/// one or three bytes comes with the first bytes that ask for it, any other
/// with one first byte after another.
fn every_split(random: &mut Random) -> Vec<Case> {
    let mut list = Vec::new();
    for (header, data, response) in splits_in_three(14) {
        let fits = |first_byte: &&u8| header_length(**first_byte) == header;
        let mut first_bytes: Vec<u8> = FIRST_BYTES.iter().filter(fits).copied().collect();
        if first_bytes.is_empty() {
            first_bytes.push(FIRST_BYTES[list.len() % FIRST_BYTES.len()]);
        }
        for first_byte in first_bytes {
            let draft = draft_of(first_byte, [header, data, response], random);
            list.push(Case::write(draft, LONGEST));
        }
    }
    list
}

fn splits_in_three(most: usize) -> Vec<(usize, usize, usize)> {
    let mut splits = Vec::new();
    for total in 0..=most {
        for header in 0..=total {
            for data in 0..=total - header {
                splits.push((header, data, total - header - data));
            }
        }
    }
    splits
}

fn draft_of(first_byte: u8, lengths: [usize; 3], random: &mut Random) -> Draft {
    Draft {
        header: starting_with(first_byte, lengths[0], random),
        data: random.bytes(lengths[1]),
        response: random.bytes(lengths[2]),
    }
}

/// Outputs around the need for the shortest and the longest frames, and for
/// two frames every length of output.
fn lent_outputs(random: &mut Random) -> Vec<Case> {
    let mut list = Vec::new();
    for first_byte in &FIRST_BYTES[..8] {
        let response = usize::from(response_kind(*first_byte) != Some(0));
        for data in [0, 1, room(*first_byte) - response] {
            let draft = Draft::of_lengths(*first_byte, data, response, random);
            let need = draft.length();
            for out in [0, need - 1, need, need + 1, LONGEST - 1] {
                list.push(Case::write(draft.clone(), out));
            }
        }
    }
    for (first_byte, data, response) in [(0x63, 3, 4), (0xB8, 0, 0)] {
        let draft = Draft::of_lengths(first_byte, data, response, random);
        list.extend((0..=LONGEST).map(|out| Case::write(draft.clone(), out)));
    }
    list
}

/// Headers of no length a header has, for each kind and form.
fn other_headers(random: &mut Random) -> Vec<Case> {
    let mut list = Vec::new();
    for first_byte in FIRST_BYTES {
        let response = match response_kind(first_byte) {
            Some(0) => 0,
            _ => 1,
        };
        for header in [0, 2, 4, 5, 16] {
            let draft = draft_of(first_byte, [header, 2, response], random);
            list.push(Case::write(draft, LONGEST));
        }
    }
    list
}

/// Headers, data, responses and outputs with and without faults, each with each.
fn several_faults(random: &mut Random) -> Vec<Case> {
    let mut list = Vec::new();
    for first_byte in FIRST_BYTES {
        let fitting = header_length(first_byte);
        for header in [fitting, 4 - fitting, 2] {
            for response in [0, 1, 2] {
                for (data, out) in [(0, 0), (0, LONGEST), (12, 0), (12, LONGEST), (16, 12)] {
                    let draft = draft_of(first_byte, [header, data, response], random);
                    list.push(Case::write(draft, out));
                }
            }
        }
    }
    for (data, response, out) in [(0, 0, 0), (0, 1, 0), (16, 16, 0), (16, 0, 32)] {
        list.push(Case::write(draft_of(0, [0, data, response], random), out));
    }
    list
}

fn published(random: &mut Random) -> Vec<Case> {
    let drafts = PUBLISHED
        .iter()
        .map(|(bytes, _)| Draft::around(bytes, random));
    drafts.map(|draft| Case::write(draft, LONGEST)).collect()
}

fn sound_frames(random: &mut Random) -> Vec<Case> {
    let mut list = Vec::new();
    for _ in 0..100 {
        let draft = Draft::random(random);
        let out = random.between(draft.length(), LONGEST);
        list.push(Case::write(draft, out));
    }
    list
}
