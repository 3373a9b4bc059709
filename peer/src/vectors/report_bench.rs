//! The bench cases and the easy errors, with the answers that the papers print:
//! written by hand, not computed by the rules.

use super::{report_extremes, report_iso_bench, report_selector_bench};
use crate::case::Case;
use crate::frame::check_byte::{check_byte, checked};
use crate::report::scene::own_rows;
use crate::sae::form::{SNM, UNM};
use crate::sae::{prn_row, slot_row, Prn};
use crate::supplement::draft::{layout_record, prn_record, slot_record, Bytes};
use crate::supplement::layout::Layout;
use crate::supplement::record::{length_of, LAYOUT};
use crate::supplement::refused_answer;

/// A case by name, with its number and its rows.
pub struct Bench {
    pub name: String,
    pub case: Case,
    pub number: u64,
    pub rows: Vec<u8>,
}

pub fn accepted(name: impl Into<String>, case: Case, rows: &[&[u8]]) -> Bench {
    let rows = rows.concat();
    Bench {
        name: name.into(),
        case,
        number: (rows.len() as u64) << 8,
        rows,
    }
}

pub fn refused(name: impl Into<String>, case: Case, number: u64) -> Bench {
    let rows = Vec::new();
    Bench {
        name: name.into(),
        case,
        number,
        rows,
    }
}

pub fn all() -> Vec<Bench> {
    let groups = [
        whole_reports(),
        full_frames(),
        values(),
        frames_refused(),
        wrong_counts(),
        easy_errors(),
        report_iso_bench::all(),
        report_extremes::all(),
        report_selector_bench::all(),
    ];
    groups.into_iter().flatten().collect()
}

/// The layout of the whole report's frames with other PRNs.
pub fn layout(prns: &[u16]) -> Bytes {
    layout_record(&Layout::of_key([0x08, 0x6B, 1, 0x41, 0]).with_prns(prns))
}

/// A frame of the whole report's header and selector with these items.
fn case(supplement: Vec<u8>, items: &[u8]) -> Case {
    let first = checked(&[&[0x48, 0x6B, 0x10, 0x41], items].concat());
    Case::report(supplement, (first, Vec::new()))
}

/// A Number's row: the whole number above the line, the divisor, and the double.
fn number(above: i64, divisor: u16, double: f64) -> Vec<u8> {
    number_of_bits(double.to_bits(), above as u64, divisor)
}

pub fn number_of_bits(double: u64, above: u64, divisor: u16) -> Vec<u8> {
    let (double, above) = (double.to_be_bytes(), above.to_be_bytes());
    [&[1], &double[..], &above, &divisor.to_be_bytes()].concat()
}

/// 101/1 and 0/128.
pub const FIRST_ITEM: [u8; 19] = [
    1, 0x40, 0x59, 0x40, 0, 0, 0, 0, 0, 0, 0, 0, 0, 0, 0, 0, 0x65, 0, 1,
];
pub const SECOND_ITEM: [u8; 19] = [1, 0, 0, 0, 0, 0, 0, 0, 0, 0, 0, 0, 0, 0, 0, 0, 0, 0, 0x80];
pub const CLEAR: [u8; 6] = [9, 0, 10, 0, 11, 1];
/// After an Invalid line.
const FLAGGED: [u8; 6] = [9, 0, 10, 0, 11, 2];

fn whole_reports() -> Vec<Bench> {
    let supplement = layout(&[0x1025, 0x100B]);
    let whole = case(supplement.clone(), &[0x65, 0x80]);
    let rows = [&FIRST_ITEM[..], &SECOND_ITEM, &CLEAR];
    let left = [&FIRST_ITEM[..], &SECOND_ITEM, &[9, 8, 10, 0, 11, 2]];
    let short = [&FIRST_ITEM[..], &[7, 7, 10, 0, 11, 2]];
    let more = case(supplement.clone(), &[0x65, 0x80, 0x99]);
    let less = case(supplement, &[0x65]);
    vec![
        accepted("whole report", whole.clone(), &rows),
        accepted("lent 44", whole.clone().lent(44), &rows),
        accepted("lent 45", whole.clone().lent(45), &rows),
        refused("lent 43", whole.clone().lent(43), 8),
        refused("lent nothing", whole.lent(0), 8),
        accepted("one data byte more", more, &left),
        accepted("one data byte less", less, &short),
    ]
}

/// Twelve bytes in all, in both forms.
fn full_frames() -> Vec<Bench> {
    let items = [0x65, 0x80, 1, 2, 3, 4, 5];
    let full = case(layout(&[0x1025, 0x100B]), &items);
    let rows = [&FIRST_ITEM[..], &SECOND_ITEM, &[9, 40, 10, 0, 11, 2]];
    let key = [0x18, 0, 1, 0x41, 0];
    let nine = layout_record(&Layout::of_key(key).with_prns(&[0x1025; 9]));
    let ten_data = checked(&[0x18, 0x41, 1, 2, 3, 4, 5, 6, 7, 8, 9]);
    let one_byte_form = Case::report(nine, (ten_data, Vec::new()));
    let over_1 = |above: i32| number(above.into(), 1, above.into());
    let mut counted: Vec<u8> = (1..=9).flat_map(over_1).collect();
    counted.extend(CLEAR);
    let bare = layout_record(&Layout::of_key([0x00, 0x6B, 0, 0, 0]));
    let answered = (checked(&[0x00, 0x6B, 0x10]), vec![7; 8]);
    vec![
        accepted("twelve bytes", full, &rows),
        accepted("ten data bytes with H = 1", one_byte_form, &[&counted]),
        accepted(
            "twelve bytes with a response",
            Case::report(bare, answered),
            &[&[9, 0, 10, 2, 11, 1]],
        ),
    ]
}

/// An item by a PRN of the supplement that names a SLOT of the SAE tables.
fn of_slot(width: u8, slot: u16, items: &[u8]) -> Case {
    let prn = prn_record(&Prn::new(0x2000, UNM, width, slot));
    case([layout(&[0x2000]), prn].concat(), items)
}

fn signed(raw: u8) -> Case {
    let (prn, slot) = own_rows(0, SNM, 8);
    let records = [layout(&[prn.prn]), prn_record(&prn), slot_record(&slot)];
    case(records.concat(), &[raw])
}

fn values() -> Vec<Bench> {
    let clear = |name, case, above, divisor, double: f64| {
        accepted(name, case, &[&number(above, divisor, double), &CLEAR])
    };
    let invalid = |name, case, raw: u8| accepted(name, case, &[&[6, 0, 0, 0, raw], &FLAGGED]);
    let at_73 = of_slot(8, 73, &[0]);
    let at_77 = of_slot(8, 77, &[149]);
    let at_61 = of_slot(16, 61, &[255, 255]);
    let at_241 = |raw| of_slot(8, 241, &[raw]);
    vec![
        clear("P1", of_slot(8, 77, &[150]), 300, 3, 100.0),
        invalid("P2", of_slot(8, 77, &[151]), 151),
        clear("P3", of_slot(8, 82, &[240]), 360, 4, 90.0),
        invalid("P4", of_slot(8, 82, &[241]), 241),
        clear("P5", of_slot(8, 92, &[0]), -12800, 128, -100.0),
        clear("P6", of_slot(8, 92, &[128]), 0, 128, 0.0),
        clear("P7", of_slot(16, 3, &[0, 0]), -17920, 256, -70.0),
        clear("P8", of_slot(8, 102, &[39]), -1, 1, -1.0),
        clear("P9", signed(0x80), -128, 1, -128.0),
        clear("P10", signed(0xFF), -1, 1, -1.0),
        clear("UNM-08-111 at 240", of_slot(8, 111, &[240]), 720, 2, 360.0),
        invalid("UNM-08-111 at 241", of_slot(8, 111, &[241]), 241),
        clear("UNM-08-241 at 25", at_241(25), 102400, 1, 102400.0),
        clear("UNM-08-241 at 26", at_241(26), 106496, 1, 106496.0),
        clear("UNM-08-241 at 255", at_241(255), 1044480, 1, 1044480.0),
        clear("UNM-16-61 at 65535", at_61, 4194240, 1, 4194240.0),
        clear("UNM-08-73 at 0", at_73, -80, 2, -40.0),
        clear("UNM-08-77 at 149", at_77, 298, 3, 298.0 / 3.0),
    ]
}

fn frames_refused() -> Vec<Bench> {
    let with_first = |first: Vec<u8>| Case::report(layout(&[]), (first, Vec::new()));
    let long = checked(&[0x18; 12]);
    vec![
        refused("P11", with_first(Vec::new()), 2),
        refused("P12", with_first(vec![0x08, 0x6B, 0x10]), 2),
        refused("P13", with_first(long), 1),
    ]
}

/// The whole report's frame with a response, and frames of other types with the
/// counts that these cannot have.
fn wrong_counts() -> Vec<Bench> {
    let counts: [(&str, u8, &[u8], u64); 6] = [
        ("K = 1 and a response", 0x48, &[0x6B], 50),
        ("kind 1 and no response", 0x41, &[], 51),
        ("kind 2 and no response", 0x40, &[], 51),
        ("kind 3 and no response", 0x43, &[], 51),
        ("kind 3 and one byte", 0x43, &[0xAB], 52),
        ("kind 1 and two bytes", 0x41, &[0x6B, 0x6C], 53),
    ];
    let benches = counts.map(|(name, first_byte, response, number)| {
        let first = checked(&[first_byte, 0x6B, 0x10, 0x41, 0x65, 0x80]);
        let case = Case::report(layout(&[]), (first, response.to_vec()));
        refused(name, case, number)
    });
    benches.into()
}

fn easy_errors() -> Vec<Bench> {
    let missing = case(layout(&[0x1025, 0x2000, 0x1025, 0x100B]), &[0x65, 1, 2, 3]);
    let lost = [8, 1, 8, 2, 8, 2, 8, 2, 10, 0, 11, 3];
    let mut list = vec![accepted(
        "a PRN of no table",
        missing,
        &[&FIRST_ITEM, &lost],
    )];
    list.extend(kind_3_responses());
    list.extend(rows_over_sae());
    list
}

/// The check byte over the response's data alone, and over all before it.
fn kind_3_responses() -> Vec<Bench> {
    let first = checked(&[0x13, 0x41]);
    let layout = layout_record(&Layout::of_key([0x13, 0, 1, 0x41, 0]));
    let over_data = checked(&[0xAB, 0xCD]);
    let whole = [&first[..], &[0xAB, 0xCD]].concat();
    let over_frame = vec![0xAB, 0xCD, check_byte(&whole)];
    let case = |response| Case::report(layout.clone(), (first.clone(), response));
    let rows: [&[u8]; 1] = [&[9, 0, 8, 7, 11, 3]];
    vec![
        accepted(
            "check byte over the response's data",
            case(over_data),
            &rows,
        ),
        refused("check byte over the whole frame", case(over_frame), 6),
    ]
}

/// Records with the keys of SAE rows and other fields.
fn rows_over_sae() -> Vec<Bench> {
    let prn = Prn {
        number: 102,
        ..prn_row(0x1025).expect("an SAE row")
    };
    let mut slot = slot_row((UNM, 8, 101)).expect("an SAE row");
    slot.offset = 1;
    let case = |record: Bytes| case([layout(&[0x1025]), record].concat(), &[0x65]);
    let number = refused_answer(15, length_of(LAYOUT));
    vec![
        refused("an SAE PRN again", case(prn_record(&prn)), number),
        refused("an SAE SLOT again", case(slot_record(&slot)), number),
    ]
}

#[cfg(test)]
mod tests {
    use super::*;

    #[test]
    fn the_rules_give_what_is_printed() {
        for bench in all() {
            let expected = (bench.number, bench.rows);
            assert_eq!(bench.case.answer(), expected, "{}", bench.name);
        }
    }
}
