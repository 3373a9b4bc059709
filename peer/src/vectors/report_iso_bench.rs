//! Bench cases of messages of ISO 9141-2: their sums are added up by hand, and
//! so are the rows and refusals written.

use super::report_bench::{accepted, layout, refused, Bench};
use super::report_bench::{CLEAR, FIRST_ITEM, SECOND_ITEM};
use crate::case::Case;
use crate::frame::bus::Bus;
use crate::frame::check_byte::checked;
use crate::supplement::draft::layout_record;
use crate::supplement::layout::Layout;
use crate::supplement::record::{length_of, LAYOUT};
use crate::supplement::refused_answer;

pub fn all() -> Vec<Bench> {
    let groups = [
        shared_layout(),
        whole_reports(),
        shortest_and_longest(),
        refusals(),
        supplement_first(),
    ];
    groups.into_iter().flatten().collect()
}

fn on(bus: Bus, supplement: Vec<u8>, run: &[u8]) -> Case {
    Case::report_on(bus, supplement, (run.to_vec(), Vec::new()))
}

/// A message under the supplement of the whole report.
fn case(run: &[u8]) -> Case {
    on(Bus::Iso9141, layout(&[0x1025, 0x100B]), run)
}

/// Header 68h 6Ah F1h finds the key 08h, 6Ah on both buses.
fn shared_layout() -> Vec<Bench> {
    let key = [0x08, 0x6A, 1, 0x01, 0];
    let supplement = layout_record(&Layout::of_key(key).with_prns(&[0x1025]));
    let frame = checked(&[0x68, 0x6A, 0xF1, 0x01, 0x0C]);
    let message = [0x68, 0x6A, 0xF1, 0x01, 0x0C, 0xD0];
    let twelve = [
        1, 0x40, 0x28, 0, 0, 0, 0, 0, 0, 0, 0, 0, 0, 0, 0, 0, 12, 0, 1,
    ];
    let rows = [&twelve[..], &CLEAR];
    let on_j1850 = on(Bus::J1850, supplement.clone(), &frame);
    let on_iso = on(Bus::Iso9141, supplement, &message);
    vec![
        accepted("J1850: 68 6A F1 01 0C", on_j1850, &rows),
        accepted("ISO: 68 6A F1 01 0C", on_iso, &rows),
    ]
}

const WHOLE: [u8; 7] = [0x48, 0x6B, 0x10, 0x41, 0x65, 0x80, 0xE9];

fn whole_reports() -> Vec<Bench> {
    let whole = case(&WHOLE);
    let rows = [&FIRST_ITEM[..], &SECOND_ITEM, &CLEAR];
    let left = [&FIRST_ITEM[..], &SECOND_ITEM, &[9, 8, 10, 0, 11, 2]];
    let more = case(&[0x48, 0x6B, 0x10, 0x41, 0x65, 0x80, 0x99, 0x82]);
    vec![
        accepted("ISO: whole report", whole.clone(), &rows),
        accepted("ISO: lent 44", whole.clone().lent(44), &rows),
        refused("ISO: lent 43", whole.clone().lent(43), 8),
        refused("ISO: lent nothing", whole.lent(0), 8),
        accepted("ISO: one data byte more", more, &left),
    ]
}

const TWELVE: [u8; 12] = [0x48, 0x6B, 0x10, 0x41, 0x65, 0x80, 1, 2, 3, 4, 5, 0xF8];
const THIRTEEN: [u8; 13] = [0x48, 0x6B, 0x10, 0x41, 0x65, 0x80, 1, 2, 3, 4, 5, 6, 0xFE];

/// Four bytes and twelve.
fn shortest_and_longest() -> Vec<Bench> {
    let bare = layout_record(&Layout::of_key([0x08, 0x6B, 0, 0, 0]));
    let four = on(Bus::Iso9141, bare, &[0x48, 0x6B, 0x10, 0xC3]);
    let rows = [&FIRST_ITEM[..], &SECOND_ITEM, &[9, 40, 10, 0, 11, 2]];
    vec![
        accepted("ISO: four bytes", four, &[&CLEAR]),
        accepted("ISO: twelve bytes", case(&TWELVE), &rows),
    ]
}

fn refusals() -> Vec<Bench> {
    let with = |first_byte: u8, last: u8| {
        let mut run = WHOLE;
        (run[0], run[6]) = (first_byte, last);
        case(&run)
    };
    let sum_on_j1850 = on(Bus::J1850, layout(&[]), &WHOLE);
    vec![
        refused("ISO: thirteen bytes", case(&THIRTEEN), 1),
        refused("ISO: no bytes", case(&[]), 2),
        refused("ISO: three bytes", case(&[0x48, 0x6B, 0xB3]), 2),
        refused("ISO: another sum", with(0x48, 0xEA), 3),
        refused("ISO: check byte of J1850", with(0x48, 0x29), 3),
        refused("J1850: sum of ISO 9141-2", sum_on_j1850, 3),
        refused("ISO: H = 1", with(0x58, 0xF9), 9),
        refused("ISO: K = 0", with(0x40, 0xE1), 9),
        refused("ISO: H = 1 and K = 0", with(0x50, 0xF1), 9),
        refused("ISO: another sum and H = 1", with(0x58, 0xE9), 3),
    ]
}

/// A byte of no kind behind the layout, before each refusal of a message.
fn supplement_first() -> Vec<Bench> {
    let number = refused_answer(11, length_of(LAYOUT));
    let mut of_first_byte = WHOLE;
    (of_first_byte[0], of_first_byte[6]) = (0x58, 0xF9);
    let mut of_sum = WHOLE;
    of_sum[6] = 0xEA;
    let messages: [(&str, &[u8]); 4] = [
        ("ISO: supplement before 1", &THIRTEEN),
        ("ISO: supplement before 2", &WHOLE[..3]),
        ("ISO: supplement before 3", &of_sum),
        ("ISO: supplement before 9", &of_first_byte),
    ];
    let faulty = |run: &[u8]| {
        let mut case = case(run);
        case.inputs[0].push(9);
        case
    };
    let benches = messages.map(|(name, run)| refused(name, faulty(run), number));
    benches.into_iter().collect()
}
