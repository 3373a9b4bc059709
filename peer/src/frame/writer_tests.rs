use super::*;
use crate::case::Case;
use crate::frame::check_byte::PUBLISHED;
use crate::frame::draft::Draft;
use crate::random::Random;

fn refused(header: &[u8], data: &[u8], response: &[u8], out_length: usize) -> u64 {
    let request = Request {
        header,
        data,
        response,
        out_length,
    };
    let (number, written) = answer(&request);
    assert!(number == 0 || number > 0xFF || written.is_empty());
    number & 0xFF
}

#[test]
fn headers() {
    assert_eq!(refused(&[], &[], &[], 32), 7);
    assert_eq!(refused(&[0x18, 1], &[], &[], 32), 7);
    assert_eq!(refused(&[0x08, 1], &[], &[], 32), 7);
    assert_eq!(refused(&[0x08], &[], &[], 32), 7);
    assert_eq!(refused(&[0x18, 1, 2], &[], &[], 32), 7);
    assert_eq!(refused(&[0x08, 1, 2, 3], &[], &[], 32), 7);
    assert_eq!(refused(&[0x08, 1, 2], &[], &[], 32), 0);
    assert_eq!(refused(&[0x18], &[], &[], 32), 0);
}

#[test]
fn unassigned_types() {
    for first_byte in [0x05, 0x26, 0xE7] {
        assert_eq!(refused(&[first_byte, 1, 2], &[], &[], 32), 4);
        assert_eq!(refused(&[first_byte | 0x10], &[3], &[4], 32), 4);
    }
}

#[test]
fn response_counts() {
    for count in 0..=12 {
        let response = vec![9; count];
        let of_kinds =
            [0x18, 0x11, 0x12, 0x13].map(|first_byte| refused(&[first_byte], &[], &response, 32));
        let expected = match count {
            0 => [0, 51, 51, 51],
            1 => [50, 0, 0, 0],
            2..=9 => [50, 53, 0, 0],
            10 => [50, 53, 0, 1],
            _ => [50, 53, 1, 1],
        };
        assert_eq!(of_kinds, expected, "{count}");
    }
}

/// What the writer of document 01 says of a fitting header and a long output: 5
/// for a count that is wrong for its kind.
fn former(header: &[u8], data: &[u8], response: &[u8]) -> u64 {
    match (response_kind(header[0]), response.len()) {
        (None, _) => 4,
        (Some(0), 1..) | (Some(1), 0 | 2..) | (Some(2 | 3), 0) => 5,
        _ if result_length(header, data, response) > 12 => 1,
        _ => 0,
    }
}

#[test]
fn one_of_50_51_and_53_exactly_where_5_was() {
    let mut random = Random::new(9);
    for first_byte in 0..=255 {
        for (data, response) in (0..=13).flat_map(|length| [(0, length), (7, length)]) {
            let draft = Draft::of_lengths(first_byte, data, response, &mut random);
            let (header, data, response) = (&draft.header, &draft.data, &draft.response);
            let number = refused(header, data, response, 32);
            match former(header, data, response) {
                5 => assert!([50, 51, 53].contains(&number), "{draft:02X?}"),
                same => assert_eq!(number, same, "{draft:02X?}"),
            }
        }
    }
}

#[test]
fn twelve_bytes_with_the_check_bytes() {
    assert_eq!(refused(&[0x18], &[1; 10], &[], 12), 0);
    assert_eq!(refused(&[0x18], &[1; 11], &[], 32), 1);
    assert_eq!(refused(&[0x03, 1, 2], &[1; 6], &[9], 12), 0);
    assert_eq!(refused(&[0x03, 1, 2], &[1; 7], &[9], 32), 1);
    assert_eq!(refused(&[0x18], &vec![0; 70_000], &[], 32), 1);
}

#[test]
fn lent_output() {
    assert_eq!(refused(&[0x13], &[1], &[9], 5), 0);
    assert_eq!(refused(&[0x13], &[1], &[9], 4), 8);
    assert_eq!(refused(&[0x13], &[1], &[9], 0), 8);
    assert_eq!(refused(&[0x13], &[1], &[9], usize::MAX), 0);
}

#[test]
fn order_of_the_tests() {
    assert_eq!(refused(&[0x05], &[1; 12], &[9], 0), 7);
    let wrong_counts: [(u8, &[u8], u64); 3] =
        [(0x18, &[9], 50), (0x13, &[], 51), (0x11, &[9, 9], 53)];
    for (first_byte, response, number) in wrong_counts {
        assert_eq!(refused(&[first_byte, 1], &[1; 12], response, 0), 7);
        assert_eq!(refused(&[0x15], &[1; 12], response, 0), 4);
        assert_eq!(refused(&[first_byte], &[1; 12], response, 0), number);
    }
    assert_eq!(refused(&[0x18], &[1; 12], &[], 0), 1);
    assert_eq!(refused(&[0x18], &[1; 10], &[], 0), 8);
}

#[test]
fn published_check_bytes_are_written() {
    let mut random = Random::new(7);
    for (bytes, check) in PUBLISHED {
        let draft = Draft::around(bytes, &mut random);
        let (number, written) = Case::write(draft, 12).answer();
        assert_eq!(number & 0xFF, 0);
        assert_eq!(written[..=bytes.len()], [bytes, &[check]].concat());
    }
}
