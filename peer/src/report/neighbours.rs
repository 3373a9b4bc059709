//! Records beside those of a scene, some of them near to its own.

use super::scene::{parts_of, Scene};
use super::Sought;
use crate::random::Random;
use crate::sae::Slot;
use crate::supplement;
use crate::supplement::draft::{
    add_distinct, layout_record, random_kind, selector_length_record, shuffle, slot_record, Bytes,
};
use crate::supplement::layout::Layout;
use crate::supplement::record::key_of;
use crate::supplement::records::Records;
use crate::supplement::selector_length::{Header, SelectorLength, MOST, USUAL};

/// Acceptable layouts that differ from this one in one field of the key, or in the
/// length of their selector and what that leaves unused.
pub fn near_layouts(sought: &Layout) -> Vec<Layout> {
    let mut list = Vec::new();
    let mut add = |change: &dyn Fn(&mut Layout)| {
        let mut layout = *sought;
        change(&mut layout);
        if supplement::answer(&layout_record(&layout)) == 0 {
            list.push(layout);
        }
    };
    for bit in 0..8 {
        add(&|layout| layout.first_byte ^= 1 << bit);
    }
    add(&|layout| layout.target ^= 0x01);
    add(&|layout| layout.target ^= 0x80);
    for place in 0..MOST {
        add(&|layout| layout.selector[place] ^= 0x01);
        add(&|layout| layout.selector[place] ^= 0x80);
    }
    let own_length = sought.selector_length;
    for length in (0..=MOST as u8).filter(|length| *length != own_length) {
        add(&|layout| {
            layout.selector_length = length;
            layout.selector[usize::from(length)..].fill(0);
        });
    }
    list
}

/// Acceptable headers one bit away from this one.
pub fn near_headers(header: Header) -> Vec<Header> {
    let mut list = Vec::new();
    for bit in 0..8 {
        for place in 0..header.len() {
            let mut near = header;
            near[place] ^= 1 << bit;
            let record = SelectorLength {
                header: near,
                length: USUAL,
            };
            if supplement::answer(&selector_length_record(&record)) == 0 {
                list.push(near);
            }
        }
    }
    list
}

/// The scene's records and a few others, some of them near to its own.
pub fn with_others(scene: &Scene, random: &mut Random) -> Vec<Bytes> {
    let mut records = scene.records();
    let kinds: Vec<u8> = (0..random.below(4)).map(|_| random_kind(random)).collect();
    add_distinct(&mut records, &kinds, random);
    if random.once_in(3) {
        let near = near_layouts(&scene.layout);
        let others = near.iter().filter(|_| random.once_in(4));
        let others: Vec<Bytes> = others.map(layout_record).collect();
        add_all_new(&mut records, others);
    }
    if random.once_in(3) {
        let others = other_lengths(scene, random);
        add_all_new(&mut records, others);
    }
    if random.once_in(3) {
        let others = lengths_for_headers(scene, &records, random);
        add_all_new(&mut records, others);
    }
    if let (Some(slot), true) = (scene.slots.last(), random.once_in(3)) {
        let near = slot_record(&near_slot(slot, random));
        if supplement::answer(&near) == 0 {
            add_new(&mut records, near);
        }
    }
    shuffle(&mut records, random);
    records
}

/// Some of the layouts that the frame seeks with each length of its selector.
fn other_lengths(scene: &Scene, random: &mut Random) -> Vec<Bytes> {
    let parts = parts_of(&scene.frame);
    let mut prns = scene.layout.used().to_vec();
    if random.once_in(2) {
        prns.truncate(random.below(3));
    }
    let mut list = Vec::new();
    for length in (0..=MOST as u8).filter(|_| !random.once_in(3)) {
        let sought = Sought::of_length(Some(length), &parts);
        let layout = Layout::of_key(sought.layout_key());
        list.push(layout_record(&layout.with_prns(&prns)));
    }
    list
}

/// Kind 4 records for some of the headers that the records have layouts for, and
/// for headers near to the frame's.
fn lengths_for_headers(scene: &Scene, records: &[Bytes], random: &mut Random) -> Vec<Bytes> {
    let layouts = Records::of(&records.concat()).layouts;
    let mut headers: Vec<Header> = layouts.iter().map(Layout::header).collect();
    headers.retain(|_| random.once_in(2));
    let mut near = near_headers(scene.layout.header());
    near.retain(|_| random.once_in(8));
    headers.extend(near);
    let record = |header| SelectorLength {
        header,
        length: random.between(0, MOST) as u8,
    };
    let records: Vec<SelectorLength> = headers.into_iter().map(record).collect();
    records.iter().map(selector_length_record).collect()
}

/// The SLOT with one field of its key changed.
fn near_slot(slot: &Slot, random: &mut Random) -> Slot {
    let mut near = *slot;
    match random.below(4) {
        0 => near.form = near.form % 9 + 1,
        1 => near.width = near.width % 64 + 1,
        2 => near.number ^= 1,
        _ => near.number ^= 0x100,
    }
    near
}

fn add_all_new(records: &mut Vec<Bytes>, others: Vec<Bytes>) {
    for other in others {
        add_new(records, other);
    }
}

fn add_new(records: &mut Vec<Bytes>, record: Bytes) {
    if records.iter().all(|other| key_of(other) != key_of(&record)) {
        records.push(record);
    }
}
