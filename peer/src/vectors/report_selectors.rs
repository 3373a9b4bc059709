//! Selectors of each length: which layout is found with them, and where the items
//! behind them begin.

use crate::case::Case;
use crate::frame::draft::{room, Draft};
use crate::random::Random;
use crate::report::neighbours::{near_headers, near_layouts};
use crate::report::scene::{frame, parts_of, Sample, Scene};
use crate::report::Sought;
use crate::supplement::draft::{
    add_distinct, layout_record, random_kind, selector_length_record, shuffle, Bytes,
};
use crate::supplement::layout::Layout;
use crate::supplement::selector_length::{Header, SelectorLength};

/// What a kind 4 record says, or that there is none.
const RECORDED: [Option<u8>; 4] = [None, Some(0), Some(1), Some(2)];

/// Both forms of header; ISO 9141-2 has the second too.
const FIRST_BYTES: [u8; 2] = [0x18, 0x48];

pub fn cases(random: &mut Random) -> Vec<Case> {
    let groups = [
        lengths_of_data(random),
        near_keys(random),
        headers(random),
        first_bytes(random),
        places(random),
        lefts(random),
        orders(random),
    ];
    groups.into_iter().flatten().collect()
}

fn record(header: Header, length: u8) -> Bytes {
    selector_length_record(&SelectorLength { header, length })
}

fn with_data(first_byte: u8, data: &[u8], random: &mut Random) -> Draft {
    let mut frame = frame(first_byte, 0, random);
    frame.data = data.to_vec();
    frame
}

/// The layouts that the frame seeks with each length. Their counts are not the
/// same, so that a report tells which was found.
fn layouts(frame: &Draft) -> Vec<Bytes> {
    let parts = parts_of(frame);
    let mut list = Vec::new();
    for length in 0..=2_u8 {
        let key = Sought::of_length(Some(length), &parts).layout_key();
        let prns = vec![0x1025; usize::from(length) + 1];
        let layout = layout_record(&Layout::of_key(key).with_prns(&prns));
        // data that are shorter seek one layout with several lengths
        if list.iter().all(|other: &Bytes| other[1..6] != layout[1..6]) {
            list.push(layout);
        }
    }
    list
}

/// Each length beside data of each length about it, with all layouts that could be
/// sought, with each alone and with none.
fn lengths_of_data(random: &mut Random) -> Vec<Case> {
    let mut list = Vec::new();
    for first_byte in FIRST_BYTES {
        for recorded in RECORDED {
            for data in 0..=4 {
                let scene = Scene::of_length(recorded, frame(first_byte, data, random));
                let layouts = layouts(&scene.frame);
                let own = scene.seeking_records()[1..].concat();
                list.push(scene.case_under([layouts.concat(), own.clone()].concat()));
                list.push(scene.case_under(own.clone()));
                for layout in layouts {
                    list.push(scene.case_under([own.clone(), layout].concat()));
                }
            }
        }
    }
    list
}

/// Layouts one field away from the one sought, without it and around it.
fn near_keys(random: &mut Random) -> Vec<Case> {
    let mut list = Vec::new();
    for first_byte in FIRST_BYTES {
        for recorded in [Some(0), Some(2)] {
            for data in [
                &[][..],
                &[0],
                &[0x41],
                &[0x41, 0],
                &[0, 0, 0],
                &[0x41, 0x0C, 0x65],
            ] {
                let frame = with_data(first_byte, data, random);
                let scene = Scene::of_length(recorded, frame);
                let [sought, own] = &scene.seeking_records()[..] else {
                    panic!("a layout and a kind 4 record");
                };
                let near = near_layouts(&scene.layout.with_prns(&[0x1025]));
                let near: Vec<Bytes> = near.iter().map(layout_record).collect();
                for other in &near {
                    list.push(scene.case_under([&other[..], own].concat()));
                }
                list.push(scene.case_under([&near.concat()[..], own, sought].concat()));
                list.push(scene.case_under([&sought[..], own, &near.concat()].concat()));
            }
        }
    }
    list
}

/// Kind 4 records of headers one bit away, each alone beside all layouts that could
/// be sought, and all around the header's own.
fn headers(random: &mut Random) -> Vec<Case> {
    let mut list = Vec::new();
    for first_byte in [0x18, 0xF8, 0x48, 0x08] {
        let scene = Scene::of(with_data(first_byte, &[0x41, 0x0C, 0x65], random));
        let (own, layouts) = (scene.layout.header(), layouts(&scene.frame).concat());
        let near = near_headers(own);
        for header in &near {
            let length = random.pick(&[0, 2]);
            list.push(scene.case_under([record(*header, length), layouts.clone()].concat()));
        }
        let others: Vec<Bytes> = near.iter().map(|header| record(*header, 1)).collect();
        for length in 0..=2 {
            for place in [0, 1, others.len()] {
                let mut records = others.clone();
                records.insert(place, record(own, length));
                list.push(scene.case_under([records.concat(), layouts.clone()].concat()));
            }
        }
    }
    list
}

/// Each first byte with a record of each length for its header.
fn first_bytes(random: &mut Random) -> Vec<Case> {
    let items = [Sample::sae(0x1025, 0x65)];
    let mut list = Vec::new();
    for first_byte in 0..=255 {
        let recorded = Some(first_byte % 3);
        list.push(Scene::holding_behind(recorded, first_byte, &items, random).case());
    }
    list
}

/// Items that fill the data behind each selector, with a byte more and one less.
fn places(random: &mut Random) -> Vec<Case> {
    let items = [
        Sample::sae(0x1000, 1),
        Sample::sae(0x1025, 0xA5),
        Sample::pad(7),
        Sample::sae(0x100B, 0x80),
    ];
    let mut list = Vec::new();
    for first_byte in FIRST_BYTES {
        for recorded in RECORDED {
            for count in 1..=items.len() {
                let full = Scene::holding_behind(recorded, first_byte, &items[..count], random);
                let (mut more, mut less) = (full.clone(), full.clone());
                more.frame.data.push(random.byte());
                less.frame.data.pop();
                list.extend([full, more, less].map(|scene| scene.case()));
            }
        }
    }
    list
}

/// Each number of bits that can be left in a longest frame, and all of the data of
/// each shorter one.
fn lefts(random: &mut Random) -> Vec<Case> {
    let mut list = Vec::new();
    for first_byte in FIRST_BYTES {
        for recorded in [Some(0), Some(2)] {
            for data in 0..=room(first_byte) {
                let scene = Scene::of_length(recorded, frame(first_byte, data, random));
                list.push(scene.case());
            }
            let longest = frame(first_byte, room(first_byte), random);
            let mut scene = Scene::of_length(recorded, longest);
            for _ in 0..16 {
                scene.add(&Sample::pad(random.between(1, 7)));
                list.push(scene.case());
            }
        }
    }
    list
}

/// The records of a scene in several orders, others among them, and each taken
/// away.
fn orders(random: &mut Random) -> Vec<Case> {
    let mut list = Vec::new();
    let items = [Sample::sae(0x1025, 0x65), Sample::sae(0x100B, 0x80)];
    for place in 0..24_usize {
        let recorded = Some((place % 3) as u8);
        let first_byte = FIRST_BYTES[place % 2];
        let scene = Scene::holding_behind(recorded, first_byte, &items, random);
        let mut records = scene.records();
        let others: Vec<u8> = (0..place / 4).map(|_| random_kind(random)).collect();
        add_distinct(&mut records, &others, random);
        shuffle(&mut records, random);
        list.push(scene.case_under(records.concat()));
        records.remove(random.below(records.len()));
        list.push(scene.case_under(records.concat()));
    }
    list
}
