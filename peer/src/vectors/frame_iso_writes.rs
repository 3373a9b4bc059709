//! The cases of the writer of ISO 9141-2.

use super::frame_writes::LONGEST;
use crate::case::Case;
use crate::frame::bus::Bus;
use crate::frame::draft::{starting_with, Draft, ISO_FIRST_BYTES};
use crate::frame::iso::{HEADER_LENGTH, LEAST_BYTES};
use crate::frame::MOST_BYTES;
use crate::random::Random;

/// The most data bytes of a message.
const MOST_DATA: usize = MOST_BYTES - LEAST_BYTES;

pub fn cases(random: &mut Random) -> Vec<Case> {
    let groups = [
        every_first_byte(random),
        every_split(random),
        lent_outputs(random),
        several_faults(random),
        extreme_bytes(),
        sound_messages(random),
    ];
    groups.into_iter().flatten().collect()
}

fn write(draft: Draft, out_length: usize) -> Case {
    Case::write_on(Bus::Iso9141, draft, out_length)
}

fn draft_of(first_byte: u8, header: usize, data: usize, random: &mut Random) -> Draft {
    Draft {
        header: starting_with(first_byte, header, random),
        data: random.bytes(data),
        response: Vec::new(),
    }
}

fn every_first_byte(random: &mut Random) -> Vec<Case> {
    let mut list = Vec::new();
    for first_byte in 0..=255 {
        let data = random.between(0, MOST_DATA);
        let draft = draft_of(first_byte, HEADER_LENGTH, data, random);
        list.push(write(draft, LONGEST));
    }
    list
}

/// Headers and data of each length, three bytes and twelve or not.
fn every_split(random: &mut Random) -> Vec<Case> {
    let mut list = Vec::new();
    for header in [0, 1, 2, 3, 4, 5, 16] {
        for data in 0..=16 {
            for first_byte in [0x68, 0x61] {
                let draft = draft_of(first_byte, header, data, random);
                list.push(write(draft, LONGEST));
            }
        }
    }
    list
}

/// Each room from 0 to 14 for data of each length, and every room for the
/// shortest and the longest message.
fn lent_outputs(random: &mut Random) -> Vec<Case> {
    let mut list = Vec::new();
    for data in 0..=MOST_DATA {
        let draft = draft_of(0x48, HEADER_LENGTH, data, random);
        let most = match data {
            0 | MOST_DATA => LONGEST,
            _ => 14,
        };
        list.extend((0..=most).map(|out| write(draft.clone(), out)));
    }
    list
}

/// Headers, first bytes, data and outputs with and without faults, each with
/// each.
fn several_faults(random: &mut Random) -> Vec<Case> {
    let mut list = Vec::new();
    for header in [0, 1, 2, 3, 4] {
        for first_byte in ISO_FIRST_BYTES {
            for data in [0, MOST_DATA, MOST_DATA + 1, 16] {
                let need = header + data + 1;
                for out in [0, need - 1, need] {
                    let draft = draft_of(first_byte, header, data, random);
                    list.push(write(draft, out));
                }
            }
        }
    }
    list
}

/// Sums about the least, the greatest and 256.
fn extreme_bytes() -> Vec<Case> {
    let parts: [(&[u8], &[u8]); 7] = [
        (&[0x08, 0, 0], &[]),
        (&[0x08, 0, 0], &[0; 8]),
        (&[0xEF, 0xFF, 0xFF], &[]),
        (&[0xEF, 0xFF, 0xFF], &[0xFF; 8]),
        (&[0x08, 0xF7, 0x00], &[]),
        (&[0x08, 0xF8, 0x00], &[]),
        (&[0x08, 0xF8, 0x01], &[]),
    ];
    let drafts = parts.map(|(header, data)| Draft::new(header, data, &[]));
    drafts.map(|draft| write(draft, LONGEST)).to_vec()
}

fn sound_messages(random: &mut Random) -> Vec<Case> {
    let mut list = Vec::new();
    for _ in 0..60 {
        let draft = Draft::random_message(random);
        let out = random.between(draft.length(), LONGEST);
        list.push(write(draft, out));
    }
    list
}
