//! Drafts of records and supplements, from which cases are made.

use super::layout::Layout;
use super::record::{key_of, length_of, KINDS, LAYOUT, PLACES, PRN, SELECTOR_LENGTH, SLOT};
use super::selector_length::{Header, SelectorLength, MOST};
use crate::random::Random;
use crate::sae::form::SNM;
use crate::sae::{has_prn, has_slot, Prn, Slot};
use std::collections::HashSet;

/// A record's bytes, kind byte first. A record need not be acceptable.
pub type Bytes = Vec<u8>;

pub fn slot_record(slot: &Slot) -> Bytes {
    let mut bytes = vec![SLOT, slot.form, slot.width];
    bytes.extend(slot.number.to_be_bytes());
    bytes.extend(slot.multiplier.to_be_bytes());
    bytes.extend(slot.divisor.to_be_bytes());
    bytes.extend(slot.offset.to_be_bytes());
    bytes.extend(slot.lowest.to_be_bytes());
    bytes.extend(slot.highest.to_be_bytes());
    bytes
}

pub fn prn_record(prn: &Prn) -> Bytes {
    let mut bytes = vec![PRN];
    bytes.extend(prn.prn.to_be_bytes());
    bytes.extend([prn.form, prn.width]);
    bytes.extend(prn.number.to_be_bytes());
    bytes
}

pub fn layout_record(layout: &Layout) -> Bytes {
    let mut bytes = vec![LAYOUT];
    bytes.extend(layout.key());
    bytes.push(layout.count);
    bytes.extend(layout.prns.iter().flat_map(|prn| prn.to_be_bytes()));
    bytes
}

/// Where a layout's record has its count and its second selector byte.
pub const COUNT_PLACE: usize = 6;
pub const SECOND_SELECTOR_PLACE: usize = 5;

/// The form that a layout had when a selector was one byte or absent.
pub fn old_layout_record(layout: &Layout) -> Bytes {
    let mut bytes = layout_record(layout);
    bytes.remove(SECOND_SELECTOR_PLACE);
    bytes
}

pub fn selector_length_record(record: &SelectorLength) -> Bytes {
    let [first_byte, target] = record.header;
    vec![SELECTOR_LENGTH, first_byte, target, record.length]
}

/// An acceptable SLOT whose key is not in the SAE tables.
pub fn random_slot(random: &mut Random) -> Slot {
    let form = random.between(1, 9) as u8;
    let limits = [random_limit(random), random_limit(random)];
    let mut slot = Slot {
        form,
        width: random.between(1, 64) as u8,
        number: random_number(random),
        multiplier: random_number(random),
        divisor: random_number(random).max(1),
        offset: random.number() as i32 >> random.below(32),
        lowest: limits[0].min(limits[1]),
        highest: limits[0].max(limits[1]),
    };
    if form == SNM && slot.lowest as i32 > slot.highest as i32 {
        (slot.lowest, slot.highest) = (slot.highest, slot.lowest);
    }
    while has_slot(slot.key()) {
        slot.number = random_number(random);
    }
    slot
}

/// Small as often as not.
fn random_number(random: &mut Random) -> u16 {
    let number = random.number() as u16;
    if random.once_in(2) {
        number % 300
    } else {
        number
    }
}

/// Now and then one where the order as signed is another.
fn random_limit(random: &mut Random) -> u32 {
    let number = random.number() as u32;
    match random.below(4) {
        0 => random.pick(&[0, 1, 0x7FFF_FFFF, 0x8000_0000, 0xFFFF_FFFF]),
        1 => number % 256,
        _ => number,
    }
}

/// An acceptable PRN that is not in the SAE tables.
pub fn random_prn(random: &mut Random) -> Prn {
    let mut prn = random.number() as u16;
    while has_prn(prn) {
        prn = random.number() as u16;
    }
    let (form, width) = (random.between(1, 9) as u8, random.between(1, 64) as u8);
    Prn::new(prn, form, width, random_number(random))
}

/// A header that a layout can have.
pub fn random_header(random: &mut Random) -> Header {
    let byte = random.byte();
    match random.once_in(2) {
        true => [byte | 0x10, 0],
        false => [byte & 0x0F, random.byte()],
    }
}

/// An acceptable layout.
pub fn random_layout(random: &mut Random) -> Layout {
    let [first_byte, target] = random_header(random);
    let mut selector = [0; MOST];
    let length = random.between(0, MOST);
    selector[..length].copy_from_slice(&random.bytes(length));
    let key = [first_byte, target, length as u8, selector[0], selector[1]];
    let count = random.between(0, PLACES);
    let prns: Vec<u16> = (0..count).map(|_| random.number() as u16).collect();
    Layout::of_key(key).with_prns(&prns)
}

/// An acceptable kind 4 record.
pub fn random_selector_length(random: &mut Random) -> SelectorLength {
    SelectorLength {
        header: random_header(random),
        length: random.between(0, MOST) as u8,
    }
}

/// An acceptable record of this kind.
pub fn random_record(kind: u8, random: &mut Random) -> Bytes {
    match kind {
        SLOT => slot_record(&random_slot(random)),
        PRN => prn_record(&random_prn(random)),
        LAYOUT => layout_record(&random_layout(random)),
        _ => selector_length_record(&random_selector_length(random)),
    }
}

pub fn random_kind(random: &mut Random) -> u8 {
    random.pick(&KINDS)
}

/// Acceptable records of these kinds, no key twice.
pub fn distinct(kinds: &[u8], random: &mut Random) -> Vec<Bytes> {
    let mut list = Vec::new();
    add_distinct(&mut list, kinds, random);
    list
}

/// More acceptable records of these kinds, none with a key that is there.
pub fn add_distinct(list: &mut Vec<Bytes>, kinds: &[u8], random: &mut Random) {
    let known = list.iter().map(|record| key_of(record).to_vec());
    let mut keys: HashSet<Bytes> = known.collect();
    for kind in kinds {
        let mut record = random_record(*kind, random);
        while !keys.insert(key_of(&record).to_vec()) {
            record = random_record(*kind, random);
        }
        list.push(record);
    }
}

/// Kinds whose records have `length` bytes together, in random order; as many
/// bytes at least as six layouts. A SLOT record is as long as three of a PRN, so
/// layouts and kind 4 records, which leave the same, give the rest of a division
/// by the length of a PRN record.
pub fn kinds_of_length(length: usize, layouts: Layouts, random: &mut Random) -> Vec<u8> {
    let [_, prn, layout, selector_length] = KINDS.map(length_of);
    assert_eq!(layout % prn, selector_length % prn, "the same rest");
    let is_rest = |count: &usize| layout * count % prn == length % prn;
    let count = (0..prn).find(is_rest).expect("a rest");
    let of_rest = [LAYOUT, LAYOUT, SELECTOR_LENGTH];
    let mut kinds: Vec<u8> = (0..count).map(|_| random.pick(&of_rest)).collect();
    let mut left = length - length_of_all(&kinds);
    if layouts == Layouts::Many {
        kinds.extend(vec![LAYOUT; left / (layout * prn) * prn]);
        left = length - length_of_all(&kinds);
    }
    while left > 0 {
        let mut more = random.pick(&[&[SLOT][..], &[PRN], &[SLOT], &[PRN], &[SELECTOR_LENGTH; 7]]);
        if length_of_all(more) > left {
            more = &[PRN];
        }
        kinds.extend(more);
        left -= length_of_all(more);
    }
    shuffle(&mut kinds, random);
    kinds
}

fn length_of_all(kinds: &[u8]) -> usize {
    kinds.iter().copied().map(length_of).sum()
}

#[derive(Clone, Copy, PartialEq)]
pub enum Layouts {
    Few,
    Many,
}

pub fn shuffle<T>(list: &mut [T], random: &mut Random) {
    for last in (1..list.len()).rev() {
        list.swap(last, random.below(last + 1));
    }
}
