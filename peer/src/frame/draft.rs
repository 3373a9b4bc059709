//! Drafts of frames and messages, from which cases are made.

use super::bus::{Bus, Runs};
use super::check_byte::checked;
use super::header::{header_length, kind_of_run, response_kind};
use super::iso::{fitting_first_byte, summed};
use super::writer::{first_run, response_run, result_length};
use super::MOST_BYTES;
use crate::random::Random;

/// A frame's parts without check bytes, or a message's, which has no response.
/// A draft need not be acceptable.
#[derive(Clone, Debug)]
pub struct Draft {
    pub header: Vec<u8>,
    pub data: Vec<u8>,
    pub response: Vec<u8>,
}

impl Draft {
    /// An acceptable frame; each kind and form is as likely as another, and
    /// one in four is filled up to twelve bytes.
    pub fn random(random: &mut Random) -> Draft {
        let first_byte = random_first_byte(random);
        Draft::random_of(another_type(first_byte, random), random)
    }

    /// An acceptable frame or message.
    pub fn random_on(bus: Bus, random: &mut Random) -> Draft {
        match bus {
            Bus::J1850 => Draft::random(random),
            Bus::Iso9141 => Draft::random_message(random),
        }
    }

    /// An acceptable message of ISO 9141-2; one in four has twelve bytes.
    pub fn random_message(random: &mut Random) -> Draft {
        let first_byte = fitting_first_byte(random.byte());
        Draft::random_of(first_byte, random)
    }

    /// An acceptable frame with this first byte, if its type is assigned.
    pub fn random_of(first_byte: u8, random: &mut Random) -> Draft {
        let kind = response_kind(first_byte);
        let room = room(first_byte);
        let response_length = match kind {
            Some(1) => 1,
            Some(2) | Some(3) => random.between(1, room),
            _ => 0,
        };
        let rest = room - response_length;
        let data_length = if random.once_in(4) {
            rest
        } else {
            random.between(0, rest)
        };
        Draft::of_lengths(first_byte, data_length, response_length, random)
    }

    /// The header that H asks for, and data and response of these lengths.
    pub fn of_lengths(first_byte: u8, data: usize, response: usize, random: &mut Random) -> Draft {
        Draft {
            header: starting_with(first_byte, header_length(first_byte), random),
            data: random.bytes(data),
            response: random.bytes(response),
        }
    }

    /// `bytes` as header and data, with the shortest response that fits.
    pub fn around(bytes: &[u8], random: &mut Random) -> Draft {
        let (header, data) = bytes.split_at(header_length(bytes[0]));
        let shortest = usize::from(kind_of_run(bytes) != Some(0));
        Draft::new(header, data, &random.bytes(shortest))
    }

    pub fn new(header: &[u8], data: &[u8], response: &[u8]) -> Draft {
        Draft {
            header: header.to_vec(),
            data: data.to_vec(),
            response: response.to_vec(),
        }
    }

    /// The length of both runs together, check bytes included.
    pub fn length(&self) -> usize {
        result_length(&self.header, &self.data, &self.response)
    }

    /// The length of what the writer of the bus makes of it.
    pub fn length_on(&self, bus: Bus) -> usize {
        match bus {
            Bus::J1850 => self.length(),
            Bus::Iso9141 => self.header.len() + self.data.len() + 1,
        }
    }

    /// The runs with the check bytes of the bus.
    pub fn runs_on(&self, bus: Bus) -> Runs {
        match bus {
            Bus::J1850 => self.runs(),
            Bus::Iso9141 => (self.message(), Vec::new()),
        }
    }

    /// Header, data and their sum.
    pub fn message(&self) -> Vec<u8> {
        assert!(self.response.is_empty(), "ISO 9141-2 has no response");
        summed(&[&self.header[..], &self.data].concat())
    }

    /// Both runs with their check bytes.
    pub fn runs(&self) -> Runs {
        let kind = kind_of_run(&self.header);
        (
            first_run(&self.header, &self.data),
            response_run(kind, &self.response),
        )
    }
}

/// One first byte for each kind and form, then two unassigned ones.
pub const FIRST_BYTES: [u8; 10] = [0x48, 0x81, 0x22, 0x63, 0xB8, 0x74, 0x10, 0xD3, 0xA5, 0x37];

/// Each assigned kind and form as likely as another, with any priority.
pub fn random_first_byte(random: &mut Random) -> u8 {
    let priority = random.byte() & 0xE0;
    random.pick(&FIRST_BYTES[..8]) & 0x1F | priority
}

/// How many data and response bytes a frame can have between them.
pub fn room(first_byte: u8) -> usize {
    let check_bytes = 1 + usize::from(response_kind(first_byte) == Some(3));
    MOST_BYTES - header_length(first_byte) - check_bytes
}

/// The same first byte, or one of another type with the same kind.
fn another_type(first_byte: u8, random: &mut Random) -> u8 {
    let same_kind = |number: &u8| response_kind(*number) == response_kind(first_byte);
    let choices: Vec<u8> = (0..16).filter(same_kind).collect();
    first_byte & 0xF0 | random.pick(&choices)
}

/// `length` bytes of which the first, if there is one, is `first_byte`.
pub fn starting_with(first_byte: u8, length: usize, random: &mut Random) -> Vec<u8> {
    let mut run = random.bytes(length);
    if let Some(first) = run.first_mut() {
        *first = first_byte;
    }
    run
}

/// A first run of `length` bytes, with a right check byte if it has two.
pub fn first_run_of(first_byte: u8, length: usize, random: &mut Random) -> Vec<u8> {
    match length {
        0 | 1 => starting_with(first_byte, length, random),
        _ => checked(&starting_with(first_byte, length - 1, random)),
    }
}

/// One first byte for each pair of H and K, that of ISO 9141-2 first.
pub const ISO_FIRST_BYTES: [u8; 4] = [0x68, 0x78, 0x61, 0x70];

/// A message of `length` bytes with the right sum; that of one byte is the sum
/// alone.
pub fn message_of(first_byte: u8, length: usize, random: &mut Random) -> Vec<u8> {
    match length {
        0 => Vec::new(),
        _ => summed(&starting_with(first_byte, length - 1, random)),
    }
}

/// A response of `length` bytes, with a right check byte if its kind has one.
pub fn response_of(first_byte: u8, length: usize, random: &mut Random) -> Vec<u8> {
    match (response_kind(first_byte), length) {
        (Some(3), 1..) => checked(&random.bytes(length - 1)),
        _ => random.bytes(length),
    }
}

/// The run with another last byte.
pub fn damaged_at_end(run: &[u8]) -> Vec<u8> {
    let mut damaged = run.to_vec();
    if let Some(last) = damaged.last_mut() {
        *last ^= 0x01;
    }
    damaged
}
