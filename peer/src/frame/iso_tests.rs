use super::*;
use crate::case::Case;
use crate::frame::bus::Bus;
use crate::frame::check_byte::checked;
use crate::frame::draft::{starting_with, Draft};
use crate::frame::reader;
use crate::random::Random;

/// A request of test mode 01h for the PID 0Ch, its sum added up by hand.
const REQUEST: [u8; 6] = [0x68, 0x6A, 0xF1, 0x01, 0x0C, 0xD0];

#[test]
fn sums() {
    assert_eq!(sum(&[]), 0);
    assert_eq!(sum(&[0xFF, 0x01]), 0);
    assert_eq!(sum(&[0xFF; 12]), 0xF4);
    assert_eq!(sum(&[0x48, 0x6B, 0x10, 0x41, 0x65, 0x80]), 0xE9);
    assert_eq!(summed(&REQUEST[..5]), REQUEST);
}

#[test]
fn parts_of_a_request() {
    let parts = Parts {
        header: &[0x68, 0x6A, 0xF1],
        data: &[0x01, 0x0C],
        kind: 0,
        response: &[],
    };
    assert_eq!(read(&REQUEST), Ok(parts));
    assert_eq!(answer_to_read(&REQUEST), 0x0000_0000_0002_0300);
}

#[test]
fn every_length() {
    let mut random = Random::new(91);
    assert_eq!(answer_to_read(&[]), 2);
    for length in 1..=20 {
        let bytes = starting_with(0x08, length - 1, &mut random);
        let expected = match length {
            ..4 => 2,
            4..=12 => 0x0300 | (length as u64 - 4) << 16,
            _ => 1,
        };
        assert_eq!(answer_to_read(&summed(&bytes)), expected, "{length}");
    }
    assert_eq!(answer_to_read(&vec![0; 70_000]), 1);
}

#[test]
fn first_bytes_by_their_bits() {
    for first_byte in 0..=255u8 {
        let (h, k) = (first_byte / 16 % 2, first_byte / 8 % 2);
        let expected = if (h, k) == (0, 1) { 0 } else { 9 };
        let header = [first_byte, 0x6A, 0xF1];
        assert_eq!(answer_to_read(&summed(&header)) & 0xFF, expected);
        assert_eq!(refused(&header, &[0x01], 12), expected);
        let fitting = fitting_first_byte(first_byte);
        assert!(!is_first_byte_wrong(fitting));
        assert_eq!(fitting & 0xE7, first_byte & 0xE7);
    }
}

#[test]
fn every_check_byte() {
    for last in 0..=255 {
        let mut run = REQUEST;
        run[5] = last;
        let expected = if last == 0xD0 { 0 } else { 3 };
        assert_eq!(answer_to_read(&run) & 0xFF, expected);
        run[0] = 0x61;
        let expected = if last == 0xC9 { 9 } else { 3 };
        assert_eq!(answer_to_read(&run), expected);
    }
}

#[test]
fn each_changed_byte_is_refused_with_3() {
    let mut random = Random::new(92);
    for _ in 0..50 {
        let run = Draft::random_message(&mut random).message();
        assert_eq!(answer_to_read(&run) & 0xFF, 0);
        for place in 0..run.len() {
            let mut changed = run.clone();
            changed[place] ^= random.between(1, 255) as u8;
            assert_eq!(answer_to_read(&changed), 3);
        }
    }
}

#[test]
fn order_of_the_readers_tests() {
    assert_eq!(answer_to_read(&[0x10; 13]), 1);
    assert_eq!(answer_to_read(&[0x10, 0x20, 0x31]), 2);
    assert_eq!(answer_to_read(&[0x10, 0x20, 0x30, 0x61]), 3);
    assert_eq!(answer_to_read(&[0x10, 0x20, 0x30, 0x60]), 9);
}

fn refused(header: &[u8], data: &[u8], out_length: usize) -> u64 {
    let request = Request {
        header,
        data,
        out_length,
    };
    let (number, written) = answer_to_write(&request);
    let is_accepted = number & 0xFF == 0;
    assert_eq!(number >> 8, written.len() as u64);
    assert_eq!(is_accepted, !written.is_empty());
    number & 0xFF
}

#[test]
fn what_is_written() {
    let request = Request {
        header: &REQUEST[..3],
        data: &REQUEST[3..5],
        out_length: 6,
    };
    assert_eq!(answer_to_write(&request), (0x0600, REQUEST.to_vec()));
}

#[test]
fn headers_and_lengths_of_the_writer() {
    for length in [0, 1, 2, 4, 5, 260] {
        assert_eq!(refused(&vec![0x08; length], &[], 32), 7);
    }
    for length in 0..=14 {
        let expected = if length <= 8 { 0 } else { 1 };
        assert_eq!(refused(&[0x08, 1, 2], &vec![7; length], 32), expected);
    }
    assert_eq!(refused(&[0x08, 1, 2], &vec![0; 70_000], 32), 1);
    for out_length in 0..=14 {
        let expected = if out_length < 6 { 8 } else { 0 };
        assert_eq!(refused(&[0x08, 1, 2], &[3, 4], out_length), expected);
    }
    assert_eq!(refused(&[0x08, 1, 2], &[3, 4], usize::MAX), 0);
}

#[test]
fn order_of_the_writers_tests() {
    assert_eq!(refused(&[0x10, 1], &[1; 12], 0), 7);
    assert_eq!(refused(&[0x10, 1, 2], &[1; 12], 0), 9);
    assert_eq!(refused(&[0x08, 1, 2], &[1; 12], 0), 1);
    assert_eq!(refused(&[0x08, 1, 2], &[1; 8], 0), 8);
}

#[test]
fn written_parts_read_back() {
    let mut random = Random::new(93);
    for _ in 0..200 {
        let draft = Draft::random_message(&mut random);
        let (number, written) = Case::write_on(Bus::Iso9141, draft.clone(), 12).answer();
        assert_eq!(number, (written.len() as u64) << 8);
        let parts = read(&written).expect("a written message");
        assert_eq!(
            (parts.header, parts.data),
            (&draft.header[..], &draft.data[..])
        );
    }
}

/// J1850 frames with H = 0 and K = 1 have the same parts.
#[test]
fn parts_are_those_of_the_j1850_frame() {
    let mut random = Random::new(94);
    for _ in 0..200 {
        let draft = Draft::random_message(&mut random);
        let bytes = [&draft.header[..], &draft.data].concat();
        assert_eq!(read(&summed(&bytes)), reader::read(&checked(&bytes), &[]));
    }
}
