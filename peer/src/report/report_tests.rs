use super::line::LONGEST;
use super::number::Number;
use super::scene::{own_rows, plain, whole_slot, Sample, Scene};
use super::*;
use crate::case::Case;
use crate::frame::bus::Bus;
use crate::frame::check_byte::checked;
use crate::frame::draft::Draft;
use crate::random::Random;
use crate::sae::form::*;
use crate::supplement::draft::{layout_record, prn_record, selector_length_record, slot_record};
use crate::supplement::layout::Layout;
use crate::supplement::record::{length_of, LAYOUT};
use crate::supplement::refused_answer;
use crate::supplement::selector_length::SelectorLength;

/// The supplement of the whole report among the bench cases.
fn bench_supplement() -> Vec<u8> {
    let layout = Layout::of_key([0x08, 0x6B, 1, 0x41, 0]);
    layout_record(&layout.with_prns(&[0x1025, 0x100B]))
}

fn bench_case(data: &[u8]) -> Case {
    let first = checked(&[&[0x48, 0x6B, 0x10][..], data].concat());
    Case::report(bench_supplement(), (first, Vec::new()))
}

#[test]
fn the_whole_report() {
    let whole = bench_case(&[0x41, 0x65, 0x80]);
    let rows = [
        &[1, 0x40, 0x59, 0x40, 0, 0, 0, 0, 0][..],
        &[0, 0, 0, 0, 0, 0, 0, 0x65, 0, 1],
        &[1, 0, 0, 0, 0, 0, 0, 0, 0],
        &[0, 0, 0, 0, 0, 0, 0, 0, 0, 0x80],
        &[9, 0, 10, 0, 11, 1],
    ];
    let rows = rows.concat();
    assert_eq!(rows.len(), 44);
    for out_length in [44, 45, LONGEST] {
        let case = whole.clone().lent(out_length);
        assert_eq!(case.answer(), (44 << 8, rows.clone()));
    }
    assert_eq!(whole.lent(43).answer(), (8, Vec::new()));
}

#[test]
fn another_layout_or_none() {
    for data in [&[][..], &[0x42, 0x65, 0x80]] {
        let (_, rows) = bench_case(data).answer();
        assert_eq!(rows, [8, 8, 10, 0, 11, 3]);
    }
}

#[test]
fn order_of_refusals() {
    let sound = bench_case(&[0x41, 0x65, 0x80]);
    let mut case = sound.clone().lent(0);
    case.inputs[1][3] ^= 1;
    case.inputs[0].push(9);
    let unknown_kind = refused_answer(11, length_of(LAYOUT));
    assert_eq!(case.answer(), (unknown_kind, Vec::new()));
    case.inputs[0].pop();
    assert_eq!(case.answer(), (3, Vec::new()));
    case.inputs[1] = sound.inputs[1].clone();
    assert_eq!(case.answer(), (8, Vec::new()));
    case.inputs[0] = vec![2; 16_385];
    assert_eq!(case.answer(), (10, Vec::new()));
    case.inputs[0] = Vec::new();
    case.inputs[1].clear();
    assert_eq!(case.answer(), (2, Vec::new()));
}

#[test]
fn keys_of_layouts() {
    let key = |recorded: Option<u8>, header: &[u8], data: &[u8]| {
        let frame = Draft::new(header, data, &[]);
        Sought::of_length(recorded, &super::scene::parts_of(&frame)).layout_key()
    };
    let (three, data) = (&[0xE8, 0x6B, 0x10], &[0x41, 0x0C, 1]);
    assert_eq!(key(None, three, data), [0x08, 0x6B, 1, 0x41, 0]);
    assert_eq!(key(Some(0), three, data), [0x08, 0x6B, 0, 0, 0]);
    assert_eq!(key(Some(1), three, data), [0x08, 0x6B, 1, 0x41, 0]);
    assert_eq!(key(Some(2), three, data), [0x08, 0x6B, 2, 0x41, 0x0C]);
    assert_eq!(key(Some(2), three, &data[..1]), [0x08, 0x6B, 1, 0x41, 0]);
    for recorded in [None, Some(0), Some(1), Some(2)] {
        assert_eq!(key(recorded, three, &[]), [0x08, 0x6B, 0, 0, 0]);
        assert_eq!(key(recorded, &[0x18], &[]), [0x18, 0, 0, 0, 0]);
    }
    assert_eq!(key(None, &[0xF8], &[0]), [0xF8, 0, 1, 0, 0]);
    assert_eq!(key(Some(2), &[0xF8], &[7, 0]), [0xF8, 0, 2, 7, 0]);
}

/// Only the record of the frame's own header tells its selector's length.
#[test]
fn lengths_by_header() {
    let record = |header, length| selector_length_record(&SelectorLength { header, length });
    let supplement = [
        record([0x08, 0x6A], 0),
        record([0x08, 0x6B], 2),
        record([0x18, 0], 0),
    ];
    let records = Records::of(&supplement.concat());
    let length = |header: &[u8]| {
        let frame = Draft::new(header, &[0x41, 0x0C, 0x65], &[]);
        let parts = super::scene::parts_of(&frame);
        let sought = Sought::of(&records, &parts);
        let selector = sought.length.min(3);
        assert_eq!(sought.selector, &frame.data[..selector]);
        assert_eq!(sought.items, &frame.data[selector..]);
        sought.length
    };
    assert_eq!(length(&[0x48, 0x6A, 0x10]), 0);
    assert_eq!(length(&[0xE8, 0x6B, 0x10]), 2);
    assert_eq!(length(&[0x48, 0x6C, 0x10]), 1);
    assert_eq!(length(&[0x49, 0x6B, 0x10]), 1);
    assert_eq!(length(&[0x18]), 0);
    assert_eq!(length(&[0x38]), 1);
}

fn rows_of(samples: &[Sample], data: usize) -> Vec<u8> {
    let mut random = Random::new(62);
    let mut scene = Scene::of(super::scene::frame(0x18, data, &mut random));
    for sample in samples {
        scene.add(sample);
    }
    scene.case().answer().1
}

#[test]
fn places_lost_and_past() {
    let (known, missing) = (plain(0, 8, 0), Sample::missing(0x2001));
    let unknown_then = |last: Sample| rows_of(&[known, missing, last], 3);
    let zero = line::row(&Line::Number(Number::of(0, 1)));
    let expected = [&zero[..], &[8, 1, 8, 2, 8, 2, 10, 0, 11, 3]].concat();
    assert_eq!(unknown_then(known), expected);
    assert_eq!(unknown_then(missing), expected);
    let short = [&zero[..], &[7, 7, 7, 10, 0, 11, 2]].concat();
    assert_eq!(rows_of(&[known, known, missing], 2), short);
    assert_eq!(rows_of(&[known, plain(1, 9, 0), known], 3), short);
}

#[test]
fn the_place_goes_on_after_other_unknowns() {
    let (prn, _) = own_rows(5, BMP, 3);
    let (wide, wide_slot) = own_rows(6, BMP, 33);
    let without_slot = Sample::own(prn, None, 7);
    let wide = Sample::own(wide, Some(wide_slot), 1);
    let rows = rows_of(&[without_slot, wide, plain(0, 4, 9)], 6);
    let nine = line::row(&Line::Number(Number::of(9, 1)));
    let expected = [&[8, 3, 8, 6][..], &nine, &[9, 0, 10, 0, 11, 3]].concat();
    assert_eq!(rows, expected);
}

#[test]
fn responses() {
    let rows = |first_byte: u8, response: &[u8]| {
        let frame = Draft::new(&[first_byte], &[], response);
        Scene::of(frame).case().answer().1
    };
    assert_eq!(rows(0x18, &[]), [9, 0, 10, 0, 11, 1]);
    assert_eq!(rows(0x11, &[7]), [9, 0, 10, 1, 11, 1]);
    assert_eq!(rows(0x12, &[7, 8]), [9, 0, 10, 2, 11, 1]);
    assert_eq!(rows(0x13, &[7]), [9, 0, 8, 7, 11, 3]);
}

#[test]
fn tables_beside_each_other() {
    let (own, slot) = own_rows(0, BMP, 8);
    let (text, packet) = (whole_slot(ASC, 8, 11), whole_slot(PKT, 8, 1));
    let layout = Layout::of_key([0x18, 0, 1, 0x41, 0]);
    let layout = layout.with_prns(&[0x100D, 0x1805, 0x2000]);
    let first = checked(&[0x18, 0x41, 0x42, 0x43, 0x44]);
    let rows = |records: &[Vec<u8>]| {
        let supplement = [&[layout_record(&layout)], records].concat().concat();
        Case::report(supplement, (first.clone(), Vec::new()))
            .answer()
            .1
    };
    let bare = rows(&[]);
    assert_eq!(bare, [8, 3, 8, 3, 8, 1, 8, 2, 10, 0, 11, 3]);
    let all = rows(&[
        slot_record(&text),
        prn_record(&own),
        slot_record(&packet),
        slot_record(&slot),
    ]);
    let expected = [4, 0, 0, 0, 0x42, 8, 4, 3, 0, 0, 0, 0x44];
    assert_eq!(all, [&expected[..], &[9, 0, 10, 0, 11, 3]].concat());
    let override_sae = slot_record(&sae::SLOTS[40]);
    let supplement = [layout_record(&layout), override_sae].concat();
    let case = Case::report(supplement, (first.clone(), Vec::new()));
    let in_sae = refused_answer(15, length_of(LAYOUT));
    assert_eq!(case.answer(), (in_sae, Vec::new()));
}

#[test]
fn the_longest_report() {
    let samples = [plain(0, 4, 1); 16];
    let rows = rows_of(&samples, 9);
    assert_eq!(rows.len(), LONGEST);
    assert!(rows.ends_with(&[9, 0, 10, 0, 11, 1]));
    assert_eq!(rows_of(&[], 10), [9, 72, 10, 0, 11, 2]);
    let mut random = Random::new(64);
    let frame = super::scene::frame(0x18, 10, &mut random);
    let all_left = Scene::of_length(Some(0), frame).case().answer().1;
    assert_eq!(all_left, [9, 80, 10, 0, 11, 2]);
}

#[test]
fn both_buses_share_layouts_and_lines() {
    let mut random = Random::new(63);
    for _ in 0..500 {
        let scene = super::scene_random::scene_on(Bus::Iso9141, &mut random);
        let answer = scene.case().answer();
        assert_eq!(answer.0 & 0xFF, 0);
        assert_eq!(answer.1[answer.1.len() - 4..][..2], [10, 0]);
        assert_eq!(scene.on(Bus::J1850).case().answer(), answer);
    }
}

#[test]
fn a_message_of_another_priority_finds_the_layout() {
    let layout = Layout::of_key([0x08, 0x6A, 1, 0x01, 0]).with_prns(&[0x1025]);
    let message = [0x68, 0x6A, 0xF1, 0x01, 0x0C, 0xD0];
    let mut rows = vec![1, 0x40, 0x28, 0, 0, 0, 0, 0, 0];
    rows.extend([0, 0, 0, 0, 0, 0, 0, 12, 0, 1, 9, 0, 10, 0, 11, 1]);
    let answer = iso_answer(&layout_record(&layout), &message, 25);
    assert_eq!(answer, (25 << 8, rows));
    assert_eq!(iso_answer(&layout_record(&layout), &message, 24).0, 8);
}

#[test]
fn order_of_refusals_of_a_message() {
    let faulty = [0x61, 0x6A, 0xF1, 0x01, 0x0C, 0xD0];
    let answer = |supplement: &[u8], run: &[u8]| iso_answer(supplement, run, 0);
    assert_eq!(answer(&[9], &faulty), (11, Vec::new()));
    assert_eq!(answer(&[], &[0x61; 13]), (1, Vec::new()));
    assert_eq!(answer(&[], &faulty[..3]), (2, Vec::new()));
    assert_eq!(answer(&[], &faulty), (3, Vec::new()));
    let summed = iso::summed(&faulty[..5]);
    assert_eq!(answer(&[], &summed), (9, Vec::new()));
    let sound = iso::summed(&[0x68, 0x6A, 0xF1]);
    assert_eq!(answer(&[], &sound), (8, Vec::new()));
}
