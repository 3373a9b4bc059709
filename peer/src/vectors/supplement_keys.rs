//! Keys seen before, keys of the SAE tables, and keys that are neither.

use crate::random::Random;
use crate::sae::form::{BMM, PKT, SFP};
use crate::sae::{has_prn, has_slot, Prn, Slot, PRNS, SLOTS};
use crate::supplement::answer;
use crate::supplement::draft::{
    distinct, layout_record, prn_record, random_kind, random_prn, random_record, random_slot,
    selector_length_record, slot_record, Bytes,
};
use crate::supplement::layout::Layout;
use crate::supplement::record::{key_of, length_of, KINDS};
use crate::supplement::selector_length::SelectorLength;

pub fn cases(random: &mut Random) -> Vec<Bytes> {
    let groups = [
        one_byte_apart(random),
        far_apart(random),
        one_key_under_each_kind(random),
        sae_rows(random),
        beside_sae_rows(random),
        untranscribed(random),
        sae_bytes_in_layouts(),
        sae_bytes_in_headers(),
        one_header(random),
    ];
    groups.into_iter().flatten().collect()
}

/// Two records of a kind, the same but for one byte.
fn one_byte_apart(random: &mut Random) -> Vec<Bytes> {
    let mut list = Vec::new();
    for kind in KINDS {
        for place in 1..length_of(kind) {
            let pair = pair_apart_at(kind, place, random);
            list.push(pair.concat());
            list.push([&pair[1][..], &pair[0]].concat());
        }
        let record = random_record(kind, random);
        list.push([&record[..], &record].concat());
    }
    list
}

/// Both records are acceptable, each by itself.
fn pair_apart_at(kind: u8, place: usize, random: &mut Random) -> [Bytes; 2] {
    loop {
        let record = random_record(kind, random);
        let mut other = record.clone();
        other[place] ^= 1 << random.below(8);
        if answer(&other) == 0 {
            return [record, other];
        }
    }
}

/// The first record's key again after several others.
fn far_apart(random: &mut Random) -> Vec<Bytes> {
    let mut list = Vec::new();
    for first in KINDS {
        for between in [1, 2, 3, 5, 8, 13] {
            let mut kinds = vec![first];
            kinds.extend((0..between).map(|_| random_kind(random)));
            let records = distinct(&kinds, random);
            let again = with_key_of(&records[0], random);
            list.push([&records.concat()[..], &again].concat());
        }
    }
    list
}

/// An acceptable record with that record's key.
pub fn with_key_of(record: &[u8], random: &mut Random) -> Bytes {
    let key = key_of(record);
    loop {
        let mut other = random_record(record[0], random);
        other[..key.len()].copy_from_slice(key);
        if answer(&other) == 0 {
            return other;
        }
    }
}

/// A record of each kind whose keys start with the same bytes, in several orders.
fn one_key_under_each_kind(random: &mut Random) -> Vec<Bytes> {
    let mut list = Vec::new();
    for key in [[1, 8, 1, 5], [9, 64, 0, 0], [3, 33, 1, 0xFF]] {
        let mut slot = random_slot(random);
        (slot.form, slot.width) = (key[0], key[1]);
        slot.number = u16::from_be_bytes([key[2], key[3]]);
        (slot.lowest, slot.highest) = (0, 0);
        let mut prn = random_prn(random);
        prn.prn = u16::from_be_bytes([key[0], key[1]]);
        let [first_byte, target, selector_length, selector] = key;
        let key = [first_byte, target, selector_length, selector, 0];
        let layout = Layout::of_key(key).with_prns(&[prn.prn]);
        let header = [first_byte, target];
        let mut records = [
            slot_record(&slot),
            prn_record(&prn),
            layout_record(&layout),
            selector_length_record(&SelectorLength { header, length: 1 }),
        ];
        for _ in 0..records.len() {
            records.rotate_left(1);
            list.push(records.concat());
            let backward: Vec<Bytes> = records.iter().rev().cloned().collect();
            list.push(backward.concat());
        }
    }
    list
}

/// Layouts for one header with each length of their selector, its bytes zero as far
/// as they can be, and the header's kind 4 record, before, among and behind them.
fn one_header(random: &mut Random) -> Vec<Bytes> {
    let mut list = Vec::new();
    for [first_byte, target] in [[0x08, 0x6B], [0x18, 0]] {
        let layouts: Vec<Bytes> = [[0, 0, 0], [1, 0, 0], [2, 0, 0], [1, 0x41, 0], [2, 0x41, 0]]
            .map(|[length, first, second]| [first_byte, target, length, first, second])
            .iter()
            .map(|key| layout_record(&Layout::of_key(*key).with_prns(&[random.number() as u16])))
            .collect();
        list.push(layouts.concat());
        for length in 0..=2 {
            let header = [first_byte, target];
            let record = selector_length_record(&SelectorLength { header, length });
            for place in [0, 2, layouts.len()] {
                let mut records = layouts.clone();
                records.insert(place, record.clone());
                list.push(records.concat());
                records.push(selector_length_record(&SelectorLength {
                    header,
                    length: 1,
                }));
                list.push(records.concat());
            }
        }
    }
    list
}

/// Each row's key, with the row's own fields and with others.
fn sae_rows(random: &mut Random) -> Vec<Bytes> {
    let mut list = Vec::new();
    for (place, row) in PRNS.iter().enumerate() {
        let other = random_prn(random);
        let prn = Prn {
            prn: row.prn,
            ..other
        };
        list.push(prn_record(if place % 2 == 0 { row } else { &prn }));
    }
    for (place, row) in SLOTS.iter().enumerate() {
        let slot = Slot {
            multiplier: row.multiplier ^ 1,
            highest: row.lowest,
            ..*row
        };
        list.push(slot_record(if place % 2 == 0 { row } else { &slot }));
    }
    for row in [PRNS[0], PRNS[PRNS.len() - 1]] {
        list.push(prn_record(&row));
        list.push(prn_record(&Prn::new(row.prn, 5, 9, 77)));
    }
    list
}

/// Keys one away from a row's, as far as they are no row's.
fn beside_sae_rows(random: &mut Random) -> Vec<Bytes> {
    let mut list = Vec::new();
    for row in PRNS {
        for prn in [row.prn.wrapping_sub(1), row.prn.wrapping_add(1)] {
            if !has_prn(prn) {
                list.push(prn_record(&Prn { prn, ..*row }));
            }
        }
    }
    for row in SLOTS {
        let mut slot = *row;
        match random.below(4) {
            0 => slot.form += 1,
            1 => slot.width += 1,
            2 => slot.number += 1,
            _ => slot.number += 0x100,
        }
        (slot.lowest, slot.highest) = (0, 0);
        if !has_slot(slot.key()) {
            list.push(slot_record(&slot));
        }
    }
    list
}

/// SLOTs that J2178-2 prints, but of forms whose SLOTs are not in the table,
/// and reserved PRNs.
fn untranscribed(random: &mut Random) -> Vec<Bytes> {
    let mut list = Vec::new();
    for (form, width, number) in [(PKT, 8, 1), (PKT, 56, 2), (SFP, 32, 1), (BMM, 8, 1)] {
        let slot = random_slot(random);
        list.push(slot_record(&Slot {
            form,
            width,
            number,
            lowest: 0,
            ..slot
        }));
    }
    for prn in [
        0x001C, 0x001F, 0x0021, 0x00FF, 0x2821, 0x380D, 0x830D, 0xE026,
    ] {
        list.push(prn_record(&Prn::new(prn, 1, 8, 101)));
    }
    list
}

/// Layouts whose keys start as a PRN's or a SLOT's in the SAE tables.
fn sae_bytes_in_layouts() -> Vec<Bytes> {
    let keys = [
        [0, 0, 0, 0, 0],
        [0, 0x0B, 0, 0, 0],
        [1, 8, 0, 0, 0],
        [1, 56, 0, 0, 0],
        [1, 8, 0, 101, 0],
        [0x10, 0, 1, 0x25, 0],
    ];
    keys.iter()
        .map(|key| layout_record(&Layout::of_key(*key)))
        .collect()
}

/// Kind 4 records whose keys are PRNs of the SAE tables, with H = 0 and H = 1.
fn sae_bytes_in_headers() -> Vec<Bytes> {
    let headers = PRNS.iter().map(|row| row.prn.to_be_bytes());
    let records = headers
        .filter(|[first_byte, _]| first_byte >> 5 == 0)
        .map(|header| selector_length_record(&SelectorLength { header, length: 2 }));
    records.collect()
}
