//! The cases of the reader of ISO 9141-2, and what is of one bus read as the
//! other's.

use crate::case::Case;
use crate::frame::bus::Bus;
use crate::frame::check_byte::{check_byte, checked};
use crate::frame::draft::{damaged_at_end, message_of, random_first_byte, starting_with};
use crate::frame::draft::{Draft, ISO_FIRST_BYTES};
use crate::frame::iso::{sum, summed, LEAST_BYTES};
use crate::frame::MOST_BYTES;
use crate::random::Random;

pub fn cases(random: &mut Random) -> Vec<Case> {
    let groups = [
        every_first_byte(random),
        every_length(random),
        every_check_byte(random),
        flipped_bits(random),
        other_check_bytes(random),
        extreme_sums(),
        sound_messages(random),
    ];
    let runs = groups.into_iter().flatten();
    let mut list: Vec<Case> = runs.map(|run| on(Bus::Iso9141, run)).collect();
    list.extend(other_bus(random));
    list
}

fn on(bus: Bus, run: Vec<u8>) -> Case {
    Case::read_on(bus, (run, Vec::new()))
}

/// Each first byte in a message with the right sum and with another: 3 comes
/// before 9.
fn every_first_byte(random: &mut Random) -> Vec<Vec<u8>> {
    let mut list = Vec::new();
    for first_byte in 0..=255 {
        let length = random.between(LEAST_BYTES, MOST_BYTES);
        let message = message_of(first_byte, length, random);
        let mut damaged = message.clone();
        damaged[length - 1] ^= random.between(1, 255) as u8;
        list.extend([message, damaged]);
    }
    list
}

/// Each length, below four and above twelve too, with the right sum and with
/// another, and with the first byte in its place however short the run is.
fn every_length(random: &mut Random) -> Vec<Vec<u8>> {
    let mut list = Vec::new();
    for length in 0..=16 {
        for first_byte in ISO_FIRST_BYTES {
            let message = message_of(first_byte, length, random);
            list.push(damaged_at_end(&message));
            list.push(message);
            if length < LEAST_BYTES {
                list.push(starting_with(first_byte, length, random));
            }
        }
    }
    list
}

/// Each value of the check byte behind messages of several lengths.
fn every_check_byte(random: &mut Random) -> Vec<Vec<u8>> {
    let mut list = Vec::new();
    for (first_byte, length) in [(0x08, 4), (0x68, 6), (0x4A, 9), (0xEF, 12)] {
        let before = starting_with(first_byte, length - 1, random);
        list.extend((0..=255).map(|last| [&before[..], &[last]].concat()));
    }
    list
}

/// Each single bit of a shortest and a longest message turned over.
fn flipped_bits(random: &mut Random) -> Vec<Vec<u8>> {
    let mut list = Vec::new();
    for length in [LEAST_BYTES, MOST_BYTES] {
        let message = message_of(0x68, length, random);
        for bit in 0..8 * length {
            let mut damaged = message.clone();
            damaged[bit / 8] ^= 0x80 >> (bit % 8);
            list.push(damaged);
        }
    }
    list
}

/// Check bytes that other rules would give: the sum's complements, the data's
/// own sum, the carry added to it, the bytes one against the other, and J1850's.
fn other_check_bytes(random: &mut Random) -> Vec<Vec<u8>> {
    let mut list = Vec::new();
    for length in LEAST_BYTES..=MOST_BYTES {
        let bytes = starting_with(0xE9, length - 1, random);
        let whole: u16 = bytes.iter().copied().map(u16::from).sum();
        for check in [
            !sum(&bytes),
            sum(&bytes).wrapping_neg(),
            sum(&bytes[3..]),
            sum(&bytes).wrapping_add((whole >> 8) as u8),
            bytes.iter().fold(0, |all, byte| all ^ byte),
            check_byte(&bytes),
        ] {
            list.push([&bytes[..], &[check]].concat());
        }
    }
    list
}

/// Messages about the least and the greatest sums, and about a sum of 256.
fn extreme_sums() -> Vec<Vec<u8>> {
    let bytes: [&[u8]; 7] = [
        &[0x08, 0, 0],
        &[0x08, 0, 0, 0, 0, 0, 0, 0, 0, 0, 0],
        &[0xEF, 0xFF, 0xFF],
        &[0xEF, 255, 255, 255, 255, 255, 255, 255, 255, 255, 255],
        &[0x08, 0xF7, 0x00],
        &[0x08, 0xF8, 0x00],
        &[0x08, 0xF8, 0x01],
    ];
    bytes.map(summed).to_vec()
}

fn sound_messages(random: &mut Random) -> Vec<Vec<u8>> {
    (0..60)
        .map(|_| Draft::random_message(random).message())
        .collect()
}

/// Frames of J1850 read as messages, messages read as frames, and both where
/// the two check bytes are the same.
fn other_bus(random: &mut Random) -> Vec<Case> {
    let mut list = Vec::new();
    for _ in 0..40 {
        let (first, _) = Draft::random_of(random_first_byte(random), random).runs();
        list.push(on(Bus::Iso9141, first));
        let message = Draft::random_message(random).message();
        list.push(on(Bus::J1850, message));
    }
    for length in LEAST_BYTES..=MOST_BYTES {
        let run = of_both(length, random);
        list.extend(Bus::BOTH.map(|bus| on(bus, run.clone())));
    }
    list
}

/// A run that both buses accept.
fn of_both(length: usize, random: &mut Random) -> Vec<u8> {
    loop {
        let run = message_of(0x68, length, random);
        if run == checked(&run[..length - 1]) {
            return run;
        }
    }
}
