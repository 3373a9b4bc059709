//! The reader's cases.

use crate::case::Case;
use crate::frame::bus::Runs;
use crate::frame::check_byte::{check_byte, checked, register, PUBLISHED};
use crate::frame::draft::{damaged_at_end, first_run_of, response_of, starting_with};
use crate::frame::draft::{Draft, FIRST_BYTES};
use crate::frame::header::{header_length, kind_of_run, response_kind};
use crate::frame::MOST_BYTES;
use crate::random::Random;

pub fn cases(random: &mut Random) -> Vec<Case> {
    let groups = [
        every_first_byte(random),
        every_split(random),
        flipped_bits(random),
        several_faults(random),
        other_check_bytes(random),
        whole_frame_checks(random),
        published(random),
        longest_fields(random),
        sound_frames(random),
    ];
    let runs = groups.into_iter().flatten();
    runs.map(Case::read).collect()
}

/// Each first byte in a sound run, in a damaged one, and before no check byte.
fn every_first_byte(random: &mut Random) -> Vec<Runs> {
    let mut list = Vec::new();
    for first_byte in 0..=255 {
        let (first, response) = Draft::random_of(first_byte, random).runs();
        let mut damaged = first.clone();
        let place = random.between(1, first.len() - 1);
        damaged[place] ^= random.between(1, 255) as u8;
        let header = first[..header_length(first_byte)].to_vec();
        if response_kind(first_byte).is_none() {
            list.push((first.clone(), random.bytes(1)));
        }
        list.push((first, response.clone()));
        list.push((damaged, response.clone()));
        list.push((header, response));
    }
    list
}

/// Each total from 0 to 14 and each place of EOD in it, check bytes right.
fn every_split(random: &mut Random) -> Vec<Runs> {
    let mut list = Vec::new();
    for total in 0..=14 {
        list.push((Vec::new(), random.bytes(total)));
        for length in 1..=total {
            for first_byte in FIRST_BYTES {
                let first = first_run_of(first_byte, length, random);
                list.push((first, response_of(first_byte, total - length, random)));
            }
        }
    }
    list
}

/// Each single bit of an accepted frame of each kind and form turned over.
fn flipped_bits(random: &mut Random) -> Vec<Runs> {
    let mut list = Vec::new();
    for first_byte in &FIRST_BYTES[..8] {
        let (first, response) = Draft::random_of(*first_byte, random).runs();
        let whole = [&first[..], &response].concat();
        list.push((first.clone(), response));
        for bit in 0..8 * whole.len() {
            let mut damaged = whole.clone();
            damaged[bit / 8] ^= 0x80 >> (bit % 8);
            let response = damaged.split_off(first.len());
            list.push((damaged, response));
        }
    }
    list
}

/// First runs and responses with and without faults, each with each.
fn several_faults(random: &mut Random) -> Vec<Runs> {
    let mut list = Vec::new();
    for first_byte in FIRST_BYTES {
        let header = header_length(first_byte);
        let mut firsts = vec![Vec::new(), starting_with(first_byte, header, random)];
        for length in [header + 3, MOST_BYTES + 1] {
            let sound = first_run_of(first_byte, length, random);
            firsts.push(damaged_at_end(&sound));
            firsts.push(sound);
        }
        let mut responses = vec![Vec::new(), random.bytes(1)];
        for length in [2, MOST_BYTES, MOST_BYTES + 1] {
            let sound = response_of(first_byte, length, random);
            responses.push(damaged_at_end(&sound));
            responses.push(sound);
        }
        for first in &firsts {
            list.extend(
                responses
                    .iter()
                    .map(|response| (first.clone(), response.clone())),
            );
        }
    }
    list
}

/// Check bytes that other rules would give: the register itself, the data
/// without the header, and the bytes in the other order.
fn other_check_bytes(random: &mut Random) -> Vec<Runs> {
    let mut list = Vec::new();
    for first_byte in &FIRST_BYTES[..8] {
        let draft = Draft::of_lengths(*first_byte, 2, 1, random);
        let response = if kind_of_run(&draft.header) == Some(0) {
            vec![]
        } else {
            draft.runs().1
        };
        let bytes = [&draft.header[..], &draft.data].concat();
        let reversed: Vec<u8> = bytes.iter().rev().copied().collect();
        for check in [
            register(&bytes),
            check_byte(&draft.data),
            check_byte(&reversed),
        ] {
            let mut first = bytes.clone();
            first.push(check);
            list.push((first, response.clone()));
        }
    }
    list
}

/// Kind 3 responses whose check byte is taken over the frame before them too,
/// with and without the first check byte; and where header and data leave the
/// register at its start, so that the check byte is right all the same.
fn whole_frame_checks(random: &mut Random) -> Vec<Runs> {
    let mut list = Vec::new();
    for first_byte in [0x03, 0x13, 0x63, 0xD3] {
        for (data, response) in [(0, 1), (0, 2), (1, 1), (2, 3), (4, 1), (3, 3), (1, 5)] {
            let draft = Draft::of_lengths(first_byte, data, response, random);
            let bytes = [&draft.header[..], &draft.data].concat();
            list.push(checked_with(&bytes, &checked(&bytes), &draft.response));
            list.push(checked_with(&bytes, &bytes, &draft.response));
        }
        let bytes = with_check_byte_zero(first_byte, random);
        list.push(checked_with(&bytes, &bytes, &random.bytes(2)));
    }
    list
}

/// The frame of `bytes` and `response`, the latter's check byte over `before`
/// and `response`.
fn checked_with(bytes: &[u8], before: &[u8], response: &[u8]) -> Runs {
    let check = check_byte(&[before, response].concat());
    (checked(bytes), [response, &[check]].concat())
}

/// Header and data after which the register is at all ones again.
fn with_check_byte_zero(first_byte: u8, random: &mut Random) -> Vec<u8> {
    let start = starting_with(first_byte, header_length(first_byte) + 2, random);
    let ends = (0..=255).map(|last| [&start[..], &[last]].concat());
    let mut found = ends.filter(|bytes| check_byte(bytes) == 0);
    found.next().expect("some last byte gives every check byte")
}

fn published(random: &mut Random) -> Vec<Runs> {
    let drafts = PUBLISHED
        .iter()
        .map(|(bytes, _)| Draft::around(bytes, random));
    drafts.map(|draft| draft.runs()).collect()
}

/// Runs of sixteen bytes, the most that a line holds.
fn longest_fields(random: &mut Random) -> Vec<Runs> {
    let mut list = Vec::new();
    for first_byte in FIRST_BYTES {
        for (first, response) in [(16, 0), (16, 16), (4, 16), (16, 2), (15, 1)] {
            let first = first_run_of(first_byte, first, random);
            list.push((first, response_of(first_byte, response, random)));
        }
    }
    list
}

fn sound_frames(random: &mut Random) -> Vec<Runs> {
    (0..100).map(|_| Draft::random(random).runs()).collect()
}
