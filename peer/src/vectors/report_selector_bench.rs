//! Bench cases of selectors, in both forms of header on J1850 and on ISO 9141-2:
//! the rows are written by hand.

use super::report_bench::{accepted, refused, Bench, CLEAR, FIRST_ITEM, SECOND_ITEM};
use crate::case::Case;
use crate::frame::bus::Bus;
use crate::sae::form::UNM;
use crate::sae::Prn;
use crate::supplement::draft::{
    layout_record, old_layout_record, prn_record, selector_length_record, Bytes,
};
use crate::supplement::layout::Layout;
use crate::supplement::selector_length::{Header, SelectorLength};

/// What the names of the cases begin with; bus and header; and the header as the
/// records have it.
type Form = (&'static str, Bus, &'static [u8], Header);

const FORMS: [Form; 3] = [
    ("", Bus::J1850, &[0x48, 0x6B, 0x10], [0x08, 0x6B]),
    ("H = 1: ", Bus::J1850, &[0x18], [0x18, 0]),
    ("ISO: ", Bus::Iso9141, &[0x48, 0x6B, 0x10], [0x08, 0x6B]),
];

/// A name; the length in the header's kind 4 record, if it has one; the layout's
/// selector and how many PRNs it has; the data; and the rows.
type Row = (
    &'static str,
    Option<u8>,
    &'static [u8],
    usize,
    &'static [u8],
    Rows,
);

type Rows = &'static [&'static [u8]];

/// Those of the whole report.
const PRNS: [u16; 2] = [0x1025, 0x100B];

const ITEMS: Rows = &[&FIRST_ITEM, &SECOND_ITEM, &CLEAR];
const FIRST_ALONE: Rows = &[&FIRST_ITEM, &CLEAR];
const LAST_SHORT: Rows = &[&FIRST_ITEM, &[7, 7, 10, 0, 11, 2]];
const BOTH_SHORT: Rows = &[&[7, 7, 7, 10, 0, 11, 2]];
const LEFT_16: Rows = &[&FIRST_ITEM, &SECOND_ITEM, &[9, 16, 10, 0, 11, 2]];
const EMPTY: Rows = &[&CLEAR];
const NOT_FOUND: Rows = &[&[8, 8, 10, 0, 11, 3]];

/// Test mode 41h and PID 0Ch with the two data bytes of the whole report.
const ANSWER: &[u8] = &[0x41, 0x0C, 0x65, 0x80];

#[rustfmt::skip]
const ROWS: [Row; 27] = [
    ("test mode and PID", Some(2), &[0x41, 0x0C], 2, ANSWER, ITEMS),
    ("test mode and PID, one item", Some(2), &[0x41, 0x0C], 1, &[0x41, 0x0C, 0x65], FIRST_ALONE),
    ("test mode and PID, a byte short", Some(2), &[0x41, 0x0C], 2, &[0x41, 0x0C, 0x65], LAST_SHORT),
    ("test mode and PID alone", Some(2), &[0x41, 0x0C], 2, &[0x41, 0x0C], BOTH_SHORT),
    ("test mode and PID 0", Some(2), &[0x41, 0], 2, &[0x41, 0, 0x65, 0x80], ITEMS),
    ("another PID", Some(2), &[0x41, 0x0D], 2, ANSWER, NOT_FOUND),
    ("another test mode", Some(2), &[0x42, 0x0C], 2, ANSWER, NOT_FOUND),
    ("test mode and PID in turn", Some(2), &[0x0C, 0x41], 2, ANSWER, NOT_FOUND),
    ("length 2 not recorded", None, &[0x41, 0x0C], 2, ANSWER, NOT_FOUND),
    ("length 1 recorded, layout of 2", Some(1), &[0x41, 0x0C], 2, ANSWER, NOT_FOUND),
    ("length 0 recorded, layout of 2", Some(0), &[0x41, 0x0C], 2, ANSWER, NOT_FOUND),
    ("length 2 recorded, layout of 1", Some(2), &[0x41], 2, ANSWER, NOT_FOUND),
    ("length 2 recorded, layout of 0", Some(2), &[], 2, ANSWER, NOT_FOUND),
    ("length 0 recorded, layout of 1", Some(0), &[0x65], 2, &[0x65, 0x80], NOT_FOUND),
    ("length 1 not recorded, layout of 0", None, &[], 2, &[0x65, 0x80], NOT_FOUND),
    ("length 1 recorded", Some(1), &[0x41], 2, &[0x41, 0x65, 0x80], ITEMS),
    ("first data byte the first item", Some(0), &[], 2, &[0x65, 0x80], ITEMS),
    ("first data byte the only item", Some(0), &[], 1, &[0x65], FIRST_ALONE),
    ("length 0 and two bytes left", Some(0), &[], 2, &[0x65, 0x80, 0x41, 0x0C], LEFT_16),
    ("length 0 and no data", Some(0), &[], 0, &[], EMPTY),
    ("length 2, one data byte", Some(2), &[0x41], 0, &[0x41], EMPTY),
    ("length 2, one data byte and items", Some(2), &[0x41], 2, &[0x41], BOTH_SHORT),
    ("length 2, one data byte, layout of 2", Some(2), &[0x41, 0], 0, &[0x41], NOT_FOUND),
    ("length 2 and no data", Some(2), &[], 0, &[], EMPTY),
    ("length 2, no data and items", Some(2), &[], 2, &[], BOTH_SHORT),
    ("length 1 recorded and no data", Some(1), &[], 0, &[], EMPTY),
    ("length 1 recorded, no data and layout of 1", Some(1), &[0], 0, &[], NOT_FOUND),
];

pub fn all() -> Vec<Bench> {
    let mut list = Vec::new();
    for form in FORMS {
        list.extend(ROWS.iter().map(|row| of_row(&form, row)));
        list.extend(other_headers(&form));
        list.extend(old_layouts(&form));
    }
    list
}

fn of_row(form: &Form, row: &Row) -> Bench {
    let (name, recorded, selector, prns, data, rows) = *row;
    let mut supplement = layout_record(&layout(form, selector, prns));
    supplement.extend(recorded.map_or(Vec::new(), |length| record(form.3, length)));
    accepted(name_of(form, name), case(form, supplement, data), rows)
}

fn name_of(form: &Form, name: &str) -> String {
    format!("{}{name}", form.0)
}

/// The layout of the form's header with the first PRNs of the whole report.
fn layout(form: &Form, selector: &[u8], prns: usize) -> Layout {
    let mut layout = Layout::of_key([form.3[0], form.3[1], selector.len() as u8, 0, 0]);
    layout.selector[..selector.len()].copy_from_slice(selector);
    layout.with_prns(&PRNS[..prns])
}

fn record(header: Header, length: u8) -> Bytes {
    selector_length_record(&SelectorLength { header, length })
}

fn case(form: &Form, supplement: Bytes, data: &[u8]) -> Case {
    let run = form.1.checked(&[form.2, data].concat());
    Case::report_on(form.1, supplement, (run, Vec::new()))
}

/// Records of other headers do not tell of this one; its own tells, wherever it
/// stands.
fn other_headers(form: &Form) -> Vec<Bench> {
    let others = [
        record([0x09, 0x6B], 0),
        record([0x08, 0x6A], 0),
        record([0x38, 0], 0),
    ];
    let usual = layout_record(&layout(form, &[0x41], 2));
    let usual = [&others.concat()[..], &usual].concat();
    let two = layout_record(&layout(form, &[0x41, 0x0C], 2));
    let two = [&record(form.3, 2)[..], &others.concat(), &two].concat();
    vec![
        accepted(
            name_of(form, "length of other headers"),
            case(form, usual, &[0x41, 0x65, 0x80]),
            ITEMS,
        ),
        accepted(
            name_of(form, "length before those of other headers"),
            case(form, two, ANSWER),
            ITEMS,
        ),
    ]
}

/// Files that makers have not issued again: cut by the end, or with the count in
/// the place of an unused selector byte.
fn old_layouts(form: &Form) -> Vec<Bench> {
    let old = old_layout_record(&layout(form, &[0x41], 2));
    let prn = prn_record(&Prn::new(0x2000, UNM, 8, 101));
    let with_prn = [&old[..], &prn].concat();
    let data = [0x41, 0x65, 0x80];
    vec![
        refused(
            name_of(form, "a layout of the old form"),
            case(form, old, &data),
            12,
        ),
        refused(
            name_of(form, "a layout of the old form and a PRN"),
            case(form, with_prn, &data),
            13,
        ),
    ]
}
