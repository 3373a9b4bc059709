//! Items one after another: places kept, lost and past, counts and verdicts.

use crate::case::Case;
use crate::random::Random;
use crate::report::scene::{frame, own_rows, Sample, Scene};
use crate::sae::form::*;
use crate::sae::{Prn, Slot};

pub fn cases(random: &mut Random) -> Vec<Case> {
    let groups = [
        sequences(random),
        counts(random),
        rules_together(random),
        unknown_alone(random),
        lefts(random),
    ];
    groups.into_iter().flatten().collect()
}

/// One item for each thing that can become of it.
fn items() -> [Sample; 9] {
    let (packed, packed_slot) = own_rows(1, PKT, 8);
    let (wide, wide_slot) = own_rows(2, BMP, 33);
    [
        Sample::sae(0x1025, 0x65),
        Sample::own(Prn::new(0x2000, UNM, 8, 77), None, 151),
        Sample::missing(0x2010),
        Sample::sae(0x1805, 0x42),
        Sample::own(packed, Some(packed_slot), 0x43),
        Sample::sae(0xA010, 9),
        Sample::own(wide, Some(wide_slot), 1),
        Sample::own(Prn::new(0x2003, UNM, 64, 1), None, 0),
        Sample::sae(0xA010, 1),
    ]
}

/// Each pair of items, and threes of the more telling ones. A frame has 56
/// bits for them, too few for the longest.
fn sequences(random: &mut Random) -> Vec<Case> {
    let items = items();
    let mut list = Vec::new();
    for a in items {
        for b in items {
            list.push(in_frame(&[a, b], 8, random));
        }
    }
    let telling = [0, 1, 2, 3, 6, 7].map(|place| items[place]);
    for a in telling {
        for b in telling {
            for c in telling {
                list.push(in_frame(&[a, b, c], 8, random));
            }
        }
    }
    list
}

/// Both forms by turns, if the data fit both.
fn in_frame(samples: &[Sample], data: usize, random: &mut Random) -> Case {
    let first_byte = match data {
        ..=8 => random.pick(&[0x18, 0x48]),
        _ => 0x18,
    };
    in_frame_of(first_byte, samples, data, random)
}

fn in_frame_of(first_byte: u8, samples: &[Sample], data: usize, random: &mut Random) -> Case {
    let mut scene = Scene::of(frame(first_byte, data, random));
    samples.iter().for_each(|sample| scene.add(sample));
    scene.case()
}

/// Each count of items: the data filled, a byte more, and a byte less.
fn counts(random: &mut Random) -> Vec<Case> {
    let mut list = Vec::new();
    for count in 0..=16 {
        let mut samples = vec![Sample::sae(0x1000, 1); count];
        if let Some(last) = samples.last_mut() {
            *last = match 8 - (count - 1) % 8 {
                8 => Sample::sae(0x1025, 0x65),
                rest => Sample::pad(rest),
            };
        }
        let bits: usize = samples.iter().map(Sample::width).sum();
        let data = 1 + bits / 8;
        list.push(in_frame(&samples, data, random));
        list.push(in_frame(&samples, data + 1, random));
        if count > 0 {
            list.push(in_frame(&samples, data - 1, random));
        }
    }
    list
}

/// Two rules that apply to one item: the last item is lost, past or inside,
/// and has or lacks each of the rest.
fn rules_together(random: &mut Random) -> Vec<Case> {
    let mut list = Vec::new();
    let missing = Sample::missing(0x2010);
    let long = Sample::own(Prn::new(0x2003, UNM, 64, 1), None, 0);
    for last in odd_items() {
        list.push(in_frame(&[missing, last], 8, random));
        list.push(in_frame(&[long, last], 8, random));
        list.push(in_frame(&[last], 1, random));
        list.push(in_frame(&[last], 10, random));
    }
    let wide = items()[6];
    list.push(in_frame(&[wide, wide], 10, random));
    list.push(in_frame(&[missing, missing], 8, random));
    list.push(in_frame(&[long, missing], 8, random));
    list
}

/// Every form, wide and not, of whole pieces and not, with and without a SLOT,
/// all bits zero or all one; the SLOT has no zero inside its limits.
fn odd_items() -> Vec<Sample> {
    let mut list = Vec::new();
    for form in UNM..=PKT {
        for width in [8, 9, 40, 42] {
            let (prn, slot) = own_rows(4, form, width);
            let slot = Slot {
                lowest: 1,
                highest: 7,
                ..slot
            };
            list.push(Sample::own(prn, Some(slot), 0));
            list.push(Sample::own(prn, None, u64::MAX));
        }
    }
    list
}

/// Each Unknown number where all else is shown, and beside what is Flagged.
fn unknown_alone(random: &mut Random) -> Vec<Case> {
    let items = items();
    let mut list = Vec::new();
    for (place, item) in items.iter().enumerate() {
        if ![2, 3, 4, 5, 6].contains(&place) {
            continue;
        }
        for (first_byte, flagged) in [(0x18, None), (0x13, None), (0x18, Some(items[1]))] {
            let samples: Vec<Sample> = flagged.into_iter().chain([items[0], *item]).collect();
            list.push(Scene::holding(first_byte, &samples, random).case());
            let mut left = Scene::of(frame(first_byte, 8, random));
            samples.iter().for_each(|sample| left.add(sample));
            list.push(left.case());
            left.add(&items[7]);
            list.push(left.case());
        }
    }
    for first_byte in [0x13, 0x43] {
        for item in [items[0], items[1]] {
            list.push(Scene::holding(first_byte, &[item], random).case());
        }
        list.push(in_frame_of(first_byte, &[items[0]], 4, random));
        list.push(in_frame_of(first_byte, &[items[7]], 4, random));
    }
    list
}

/// Every number of bits that can be left.
fn lefts(random: &mut Random) -> Vec<Case> {
    let mut list = Vec::new();
    for left in 0..=72_usize {
        let data = 1 + left.div_ceil(8);
        let samples = match left % 8 {
            0 => vec![],
            rest => vec![Sample::pad(8 - rest)],
        };
        list.push(in_frame(&samples, data, random));
    }
    list
}
