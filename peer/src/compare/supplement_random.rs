//! Random supplements: about half accepted, and every refusal often.

use crate::random::Random;
use crate::sae::{Prn, Slot, PRNS, SLOTS};
use crate::supplement::draft::{
    distinct, kinds_of_length, layout_record, prn_record, random_kind, random_layout, random_prn,
    random_record, random_selector_length, random_slot, selector_length_record, slot_record, Bytes,
    Layouts, COUNT_PLACE, SECOND_SELECTOR_PLACE,
};
use crate::supplement::record::{length, LAYOUT, PLACES, PRN, SELECTOR_LENGTH, SLOT};
use crate::supplement::selector_length::MOST;
use crate::supplement::MOST_BYTES;

pub fn supplement(random: &mut Random) -> Vec<u8> {
    if random.once_in(50) {
        let length = random.below(40);
        return random.bytes(length);
    }
    let mut records = distinct(&kinds(random), random);
    let faults = random.pick(&[0, 0, 0, 1, 1, 1, 1, 2, 2, 3]);
    for _ in 0..faults {
        spoil(&mut records, random);
    }
    let mut supplement = records.concat();
    if random.once_in(20) {
        spoil_bytes(&mut supplement, random);
    }
    supplement
}

/// Mostly a few records, sometimes hundreds, seldom as many as fit or more.
pub fn kinds(random: &mut Random) -> Vec<u8> {
    let count = match random.below(3000) {
        0 => {
            let layouts = random.pick(&[Layouts::Few, Layouts::Many]);
            return kinds_of_length(large(random), layouts, random);
        }
        1..=12 => random.between(50, 350),
        13..=100 => random.between(11, 40),
        _ => random.below(11),
    };
    (0..count).map(|_| random_kind(random)).collect()
}

/// A length about the most, or far from it.
pub fn large(random: &mut Random) -> usize {
    match random.below(4) {
        0 => MOST_BYTES,
        1 => MOST_BYTES + 1,
        2 => random.between(MOST_BYTES - 8, MOST_BYTES + 8),
        _ => random.between(2000, MOST_BYTES + 5000),
    }
}

/// One fault, or what is nearly one, in one record.
pub fn spoil(records: &mut Vec<Bytes>, random: &mut Random) {
    if records.is_empty() {
        return records.push(spoiled_field(random));
    }
    let place = random.below(records.len());
    match random.below(10) {
        0 | 1 => records[place] = spoiled_field(random),
        2 => break_field(&mut records[place], random),
        3 => records.push(copy_of(&records[place], random)),
        4 => records.insert(place, near_sae(random)),
        5 => records[place] = sae_key(random),
        6 => {
            let last = records.len() - 1;
            let length = random.between(1, records[last].len());
            records[last].truncate(length);
        }
        7 => records[place][0] = random.byte(),
        8 => lose_byte(&mut records[place]),
        _ => {
            let byte = random.byte();
            records.insert(place, vec![byte]);
        }
    }
}

/// A layout as it was when its selector had one byte; any other record is cut, as
/// long as a byte of it is left.
fn lose_byte(record: &mut Bytes) {
    match record[..] {
        [LAYOUT, _, _, _, _, _, ..] => {
            record.remove(SECOND_SELECTOR_PLACE);
        }
        [_, _, ..] => record.truncate(record.len() - 1),
        _ => {}
    }
}

/// A bit, a byte or the length of the whole changed.
fn spoil_bytes(supplement: &mut Vec<u8>, random: &mut Random) {
    if supplement.is_empty() {
        return supplement.push(random.byte());
    }
    let place = random.below(supplement.len());
    match random.below(4) {
        0 => supplement[place] ^= 1 << random.below(8),
        1 => supplement[place] = random.byte(),
        2 => supplement.truncate(place),
        _ => supplement.push(random.byte()),
    }
}

/// The values about the bounds of form, width and the selector's length.
const FORMS: [u8; 6] = [0, 1, 2, 9, 10, 255];
const WIDTHS: [u8; 6] = [0, 1, 63, 64, 65, 255];
const LENGTHS: [u8; 6] = [0, 1, 2, 3, 4, 255];

/// A new record with one field at a side of its bound.
fn spoiled_field(random: &mut Random) -> Bytes {
    match random_kind(random) {
        SLOT => slot_record(&spoiled_slot(random)),
        PRN => {
            let mut prn = random_prn(random);
            if random.once_in(2) {
                prn.form = random.pick(&FORMS);
            } else {
                prn.width = random.pick(&WIDTHS);
            }
            prn_record(&prn)
        }
        LAYOUT => spoiled_layout(random),
        _ => spoiled_selector_length(random),
    }
}

fn spoiled_slot(random: &mut Random) -> Slot {
    let mut slot = random_slot(random);
    match random.below(6) {
        0 => slot.form = random.pick(&FORMS),
        1 => slot.width = random.pick(&WIDTHS),
        2 => slot.divisor = random.pick(&[0, 1, 0x100, 0xFF00]),
        3 => (slot.lowest, slot.highest) = (slot.highest, slot.lowest),
        4 => slot.lowest = slot.highest.wrapping_add(1),
        _ => {
            slot.form = random.pick(&[1, 2, 2, 3]);
            (slot.lowest, slot.highest) = random.pick(&[
                (0x8000_0000, 0x7FFF_FFFF),
                (0x7FFF_FFFF, 0x8000_0000),
                (0xFFFF_FF80, 0x7F),
                (0x7F, 0xFFFF_FF80),
                (5, 5),
            ]);
        }
    }
    slot
}

fn spoiled_layout(random: &mut Random) -> Bytes {
    let mut layout = random_layout(random);
    let byte = random.byte();
    match random.below(6) {
        0 => layout.first_byte = byte,
        1 => layout.target = random.pick(&[0, 1, byte]),
        2 => layout.selector_length = random.pick(&LENGTHS),
        3 => layout.selector[random.below(MOST)] = random.pick(&[0, 1, byte]),
        4 => layout.count = random.pick(&[0, 15, 16, 17, 255, byte % 20]),
        _ => layout.prns[random.below(PLACES)] = random.pick(&[0x0001, 0x0100]),
    }
    layout_record(&layout)
}

fn spoiled_selector_length(random: &mut Random) -> Bytes {
    let mut record = random_selector_length(random);
    let byte = random.byte();
    match random.below(3) {
        0 => record.header[0] = byte,
        1 => record.header[1] = random.pick(&[0, 1, byte]),
        _ => record.length = random.pick(&LENGTHS),
    }
    selector_length_record(&record)
}

/// One byte of a record changed, or its field outside the key put out of its range.
fn break_field(record: &mut Bytes, random: &mut Random) {
    let place = random.below(record.len());
    let is_whole = length(record[0]) == Some(record.len());
    match (record[0], random.once_in(2) && is_whole) {
        (SLOT, true) => record[7..9].fill(0),
        (PRN, true) => record[3] = 0,
        (LAYOUT, true) => record[COUNT_PLACE] = 17,
        (SELECTOR_LENGTH, true) => record[3] = 3,
        _ => record[place] ^= 1 << random.below(8),
    }
}

/// The record again, or with one byte changed.
fn copy_of(record: &[u8], random: &mut Random) -> Bytes {
    let mut copy = record.to_vec();
    if copy.len() > 1 && !random.once_in(3) {
        let place = random.between(1, copy.len() - 1);
        copy[place] ^= 1 << random.below(8);
    }
    copy
}

/// A row's key with the row's own fields or with others, which may be out of
/// range.
fn sae_key(random: &mut Random) -> Bytes {
    if random.once_in(2) {
        let row = row_of(PRNS, random);
        let other = Prn {
            prn: row.prn,
            ..random_prn(random)
        };
        return prn_record(&random.pick(&[row, other, Prn { form: 0, ..row }]));
    }
    let row = row_of(SLOTS, random);
    let other = Slot {
        multiplier: 3,
        offset: 5,
        ..row
    };
    slot_record(&random.pick(&[row, other, Slot { divisor: 0, ..row }]))
}

/// The first and the last row are the more likely.
fn row_of<T: Copy>(rows: &[T], random: &mut Random) -> T {
    match random.below(10) {
        0 => rows[0],
        1 => rows[rows.len() - 1],
        _ => random.pick(rows),
    }
}

/// A key that is a row's or differs from one by little.
fn near_sae(random: &mut Random) -> Bytes {
    match random.below(4) {
        0 => {
            let row = random.pick(PRNS);
            let prn = row.prn.wrapping_add(random.pick(&[0, 1, 0xFFFF, 0x0100]));
            prn_record(&Prn { prn, ..row })
        }
        1 => {
            let mut row = random.pick(SLOTS);
            match random.below(3) {
                0 => row.form += 1,
                1 => row.width += 1,
                _ => row.number += random.pick(&[0, 1, 0x100]),
            }
            slot_record(&row)
        }
        2 => {
            let mut record = random_record(LAYOUT, random);
            let row = slot_record(&random.pick(SLOTS));
            record[1..5].copy_from_slice(&row[1..5]);
            record
        }
        _ => {
            let mut record = random_record(SELECTOR_LENGTH, random);
            let row = prn_record(&random.pick(PRNS));
            record[1..3].copy_from_slice(&row[1..3]);
            record
        }
    }
}
