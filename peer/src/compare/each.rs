//! What is compared whole and not by chance: each length of response of J1850,
//! each first byte, length, check byte and room of ISO 9141-2, and on both buses
//! each byte that can be changed.

use super::{each_response, Archive, Outcome, ENOUGH};
use crate::case::Case;
use crate::frame::bus::{Bus, Runs};
use crate::frame::draft::{message_of, room, starting_with, Draft, FIRST_BYTES, ISO_FIRST_BYTES};
use crate::frame::header::response_kind;
use crate::frame::iso::{HEADER_LENGTH, LEAST_BYTES};
use crate::frame::refusal::CHECK_BYTE;
use crate::frame::MOST_BYTES;
use crate::random::Random;
use crate::report::scene::frame;

const FIRST_BYTE: &str = "each first byte";
const LENGTH: &str = "each length";
const CHECK: &str = "each check byte";
const ROOM: &str = "each room";
const CHANGED: &str = "one byte changed";

/// Those of the bus.
pub fn classes(bus: Bus) -> Vec<String> {
    let mut classes = match bus {
        Bus::J1850 => each_response::classes(),
        Bus::Iso9141 => [FIRST_BYTE, LENGTH, CHECK, ROOM].map(String::from).into(),
    };
    classes.push(CHANGED.to_string());
    classes
}

impl Outcome {
    /// Runs all of them, unless enough differ.
    pub fn with_each(mut self, archive: Archive, bus: Bus, random: &mut Random) -> Outcome {
        match bus {
            Bus::J1850 => self.compare_each_response(archive, random),
            Bus::Iso9141 => self.compare_each_message(archive, random),
        }
        for runs in accepted_runs(bus, random) {
            self.change_each_byte(archive, bus, &runs, random);
        }
        self
    }

    fn compare_each_message(&mut self, archive: Archive, random: &mut Random) {
        for (class, case) in messages(random) {
            self.compare_one(archive, class, &case, random);
        }
    }

    pub fn compare_one(&mut self, archive: Archive, class: &str, case: &Case, random: &mut Random) {
        if self.differences.len() < ENOUGH {
            self.counts.count(class);
            self.compare(archive, case, &case.answer(), random);
        }
    }

    /// Each other value in each place of an accepted first run or message: none
    /// is accepted, and ISO 9141-2 finds the sum wrong.
    fn change_each_byte(&mut self, archive: Archive, bus: Bus, runs: &Runs, random: &mut Random) {
        let sound = Case::read_on(bus, runs.clone());
        assert_eq!(sound.answer().0 & 0xFF, 0, "an accepted frame: {sound}");
        self.compare(archive, &sound, &sound.answer(), random);
        for place in 0..runs.0.len() {
            for difference in 1..=255 {
                let mut changed = sound.clone();
                changed.inputs[0][place] ^= difference;
                let number = changed.answer().0;
                let is_found = match bus {
                    Bus::J1850 => number & 0xFF != 0,
                    Bus::Iso9141 => number == CHECK_BYTE.into(),
                };
                assert!(is_found, "a changed byte is found: {changed}");
                self.compare_one(archive, CHANGED, &changed, random);
            }
        }
    }
}

type Class = &'static str;

/// Reads, reports under no supplement, and writes.
fn messages(random: &mut Random) -> Vec<(Class, Case)> {
    let mut list = Vec::new();
    let mut read = |class, run: Vec<u8>| {
        let runs = (run, Vec::new());
        list.push((class, Case::read_on(Bus::Iso9141, runs.clone())));
        list.push((class, Case::report_on(Bus::Iso9141, Vec::new(), runs)));
    };
    for length in LEAST_BYTES..=MOST_BYTES {
        for first_byte in 0..=255 {
            read(FIRST_BYTE, message_of(first_byte, length, random));
        }
        for first_byte in ISO_FIRST_BYTES {
            let before = starting_with(first_byte, length - 1, random);
            (0..=255).for_each(|last| read(CHECK, [&before[..], &[last]].concat()));
        }
    }
    for length in 0..=20 {
        for first_byte in ISO_FIRST_BYTES {
            read(LENGTH, message_of(first_byte, length, random));
            read(LENGTH, starting_with(first_byte, length, random));
        }
    }
    list.extend(writes(random));
    list
}

fn writes(random: &mut Random) -> Vec<(Class, Case)> {
    let mut list = Vec::new();
    let mut write = |class, first_byte, header, data, out_length, random: &mut Random| {
        let header = starting_with(first_byte, header, random);
        let draft = Draft::new(&header, &random.bytes(data), &[]);
        list.push((class, Case::write_on(Bus::Iso9141, draft, out_length)));
    };
    for first_byte in 0..=255 {
        for data in 0..=MOST_BYTES - LEAST_BYTES {
            write(FIRST_BYTE, first_byte, HEADER_LENGTH, data, 12, random);
        }
    }
    for first_byte in ISO_FIRST_BYTES {
        for data in 0..=14 {
            for room in 0..=14 {
                for header in 0..=5 {
                    write(ROOM, first_byte, header, data, room, random);
                }
            }
        }
    }
    list
}

/// Accepted frames or messages of each length that the first run can have, with
/// the shortest response.
fn accepted_runs(bus: Bus, random: &mut Random) -> Vec<Runs> {
    let first_bytes: &[u8] = match bus {
        Bus::J1850 => &FIRST_BYTES[..8],
        Bus::Iso9141 => &[0x08, 0x68, 0x4C, 0xEF],
    };
    let mut list = Vec::new();
    for first_byte in first_bytes {
        let response = usize::from(response_kind(*first_byte) != Some(0));
        let most = room(*first_byte) - response;
        list.extend((0..=most).map(|data| frame(*first_byte, data, random).runs_on(bus)));
    }
    list
}
