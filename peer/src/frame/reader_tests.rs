use super::*;
use crate::frame::check_byte::{check_byte, checked};
use crate::frame::draft::{damaged_at_end, first_run_of, response_of, Draft};
use crate::random::Random;

#[test]
fn bench_cases_of_refusal() {
    assert_eq!(answer(&[], &[]), 2);
    assert_eq!(answer(&[0x08, 0x6B, 0x10], &[]), 2);
    assert_eq!(answer(&checked(&[0x18; 12]), &[]), 1);
    assert_eq!(answer(&[], &[0; 13]), 1);
}

#[test]
fn bench_frame_of_the_report() {
    let first = checked(&[0x48, 0x6B, 0x10, 0x41, 0x65, 0x80]);
    assert_eq!(answer(&first, &[]), 0x0000_0000_0003_0300);
}

#[test]
fn twelve_bytes_are_accepted() {
    let one_byte_form = checked(&[0x18, 1, 2, 3, 4, 5, 6, 7, 8, 9, 10]);
    assert_eq!(answer(&one_byte_form, &[]), 0x0000_0000_000A_0100);
    let three_byte_form = checked(&[0x08, 0x6B, 0x10, 1, 2, 3, 4, 5, 6, 7, 8]);
    assert_eq!(answer(&three_byte_form, &[]), 0x0000_0000_0008_0300);
    let answered = checked(&[0x00, 0x6B, 0x10]);
    assert_eq!(answer(&answered, &[7; 8]), 0x0000_0008_0200_0300);
    let answered_with_data = checked(&[0x13]);
    assert_eq!(
        answer(&answered_with_data, &checked(&[7; 9])),
        0x0000_0009_0300_0100
    );
}

#[test]
fn lengths_up_to_the_largest() {
    let long = vec![0; 5000];
    assert_eq!(answer(&long, &long), 1);
    assert_eq!(answer(&checked(&[0x10; 260]), &[]), 1);
}

#[test]
fn first_run_short() {
    assert_eq!(answer(&[0x18], &[]), 2);
    assert_eq!(answer(&checked(&[0x18]), &[]), 0x0000_0000_0000_0100);
    assert_eq!(answer(&[], &[1, 2]), 2);
    assert_eq!(answer(&checked(&[0x08, 0x6B]), &[]), 2);
}

#[test]
fn each_flipped_bit_of_the_first_run_is_refused() {
    let mut random = Random::new(5);
    for _ in 0..200 {
        let (first, response) = Draft::random(&mut random).runs();
        for bit in 0..8 * first.len() {
            let mut damaged = first.clone();
            damaged[bit / 8] ^= 0x80 >> (bit % 8);
            let whole = damaged.len() > header_length(damaged[0]);
            assert_eq!(answer(&damaged, &response), if whole { 3 } else { 2 });
        }
    }
}

#[test]
fn unassigned_types() {
    for first_byte in [0x05, 0xE6, 0x07] {
        assert_eq!(answer(&checked(&[first_byte, 1, 2]), &[]), 4);
        assert_eq!(answer(&checked(&[first_byte | 0x10]), &[1]), 4);
    }
}

/// `count` bytes, the last the check byte of those before it.
fn sound_run(count: usize) -> Vec<u8> {
    match count {
        0 => Vec::new(),
        _ => checked(&vec![9; count - 1]),
    }
}

#[test]
fn response_counts() {
    for count in 0..=10 {
        let response = sound_run(count);
        let of_kinds = [0x18, 0x11, 0x12, 0x13]
            .map(|first_byte| answer(&checked(&[first_byte]), &response) & 0xFF);
        let expected = match count {
            0 => [0, 51, 51, 51],
            1 => [50, 0, 0, 52],
            _ => [50, 53, 0, 0],
        };
        assert_eq!(of_kinds, expected, "{count}");
    }
}

/// What the reader of document 01 says of a first run with a right check byte:
/// 5 for a count that is wrong for its kind.
fn former(first: &[u8], response: &[u8]) -> u64 {
    match (response_kind(first[0]), response.len()) {
        _ if first.len() + response.len() > 12 => 1,
        (None, _) => 4,
        (Some(0), 1..) | (Some(1), 0 | 2..) | (Some(2), 0) | (Some(3), 0 | 1) => 5,
        (Some(3), _) if check_byte::is_wrong(response) => 6,
        _ => 0,
    }
}

#[test]
fn one_of_the_four_exactly_where_5_was() {
    let mut random = Random::new(8);
    for first_byte in 0..=255 {
        let first = first_run_of(first_byte, header_length(first_byte) + 1, &mut random);
        for length in 0..=13 {
            let sound = response_of(first_byte, length, &mut random);
            for response in [damaged_at_end(&sound), sound] {
                let number = answer(&first, &response) & 0xFF;
                match former(&first, &response) {
                    5 => assert!((50..=53).contains(&number), "{first:02X?} {length}"),
                    same => assert_eq!(number, same, "{first:02X?} {length}"),
                }
            }
        }
    }
}

/// A first byte and a response for each of the four.
const WRONG_COUNTS: [(u8, &[u8], u64); 4] = [
    (0x18, &[1], 50),
    (0x13, &[], 51),
    (0x13, &[1], 52),
    (0x11, &[1, 2], 53),
];

#[test]
fn the_four_stand_behind_1_to_4() {
    for (first_byte, response, number) in WRONG_COUNTS {
        let refused = |first: &[u8]| answer(first, response);
        let sound = checked(&[first_byte, 0x41]);
        let thirteen_in_all = checked(&vec![first_byte; MOST_BYTES - response.len()]);
        assert_eq!(refused(&thirteen_in_all), 1);
        assert_eq!(refused(&sound[..1]), 2);
        assert_eq!(refused(&damaged_at_end(&sound)), 3);
        assert_eq!(refused(&checked(&[0x15, 0x41])), 4);
        assert_eq!(refused(&sound), number);
    }
}

/// 0 is the check byte of no data, and no better than another byte.
#[test]
fn the_four_stand_before_6() {
    let first = checked(&[0x13]);
    for only in 0..=255 {
        assert_eq!(answer(&first, &[only]), 52);
    }
    assert_eq!(answer(&first, &[]), 51);
}

#[test]
fn response_check_byte_is_over_its_data_alone() {
    let first = checked(&[0x13, 0x41]);
    assert_eq!(
        answer(&first, &checked(&[0xAB, 0xCD])),
        0x0000_0002_0301_0100
    );
    let whole = [&first[..], &[0xAB, 0xCD]].concat();
    assert_eq!(answer(&first, &[0xAB, 0xCD, check_byte(&whole)]), 6);
    let unchecked = [0x13, 0x41, 0xAB, 0xCD];
    assert_eq!(answer(&first, &[0xAB, 0xCD, check_byte(&unchecked)]), 6);
    assert_eq!(answer(&first, &[0xAB, 0xCD]), 6);
}

#[test]
fn addresses_are_not_checked() {
    let first = checked(&[0x12, 0x41]);
    for address in 0..=255 {
        assert_eq!(answer(&first, &[address, !address]), 0x0000_0002_0201_0100);
    }
}

#[test]
fn order_of_the_tests() {
    let unassigned = checked(&[0x15]);
    assert_eq!(answer(&[], &[0; 13]), 1);
    assert_eq!(answer(&[0x05; 13], &[]), 1);
    assert_eq!(answer(&[0x05, 1, 2], &[]), 2);
    assert_eq!(answer(&[0x15, !unassigned[1]], &[]), 3);
    assert_eq!(answer(&unassigned, &[1, 2, 3]), 4);
    assert_eq!(answer(&checked(&[0x13]), &[1]), 52);
    assert_eq!(answer(&checked(&[0x13]), &[1, 2]), 6);
}
