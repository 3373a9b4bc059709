//! Items of each form and width, cut at each bit, and their values.

use crate::case::Case;
use crate::random::Random;
use crate::report::item::limits;
use crate::report::scene::{own_rows, Sample, Scene};
use crate::report::scene_random::{own_slot, raw};
use crate::sae::form::*;
use crate::sae::{all_ones, Slot};
use crate::supplement::draft::random_slot;

pub fn cases(random: &mut Random) -> Vec<Case> {
    let groups = [
        cuts(random),
        forms_and_widths(random),
        limits_of_widths(random),
        values(random),
        ends_of_fields(random),
        zeros(random),
        texts(random),
        digits(random),
    ];
    groups.into_iter().flatten().collect()
}

/// The most bits that a frame has after its selector.
const MOST_BITS: usize = 72;

/// Each width at each bit of a byte, after whole bytes as far as there is
/// room, and one more item behind it.
fn cuts(random: &mut Random) -> Vec<Case> {
    let mut list = Vec::new();
    for width in 1..=64 {
        for bit in 0..8 {
            let form = match width {
                ..=32 => random.pick(&[UNM, SNM, SED, BMP]),
                _ => (list.len() % 9) as u8 + 1,
            };
            let (prn, slot) = own_rows(0, form, width as u8);
            let item = Sample::own(prn, Some(slot), random.number() | 1);
            list.push(cut(item, bit, random));
        }
    }
    list
}

fn cut(item: Sample, bit: usize, random: &mut Random) -> Case {
    let room = MOST_BITS - bit - item.width();
    let mut samples = vec![Sample::sae(0x1025, random.number()); random.below(room / 8 + 1)];
    let room = room - 8 * samples.len();
    if bit > 0 {
        samples.push(Sample::pad(bit));
    }
    samples.push(item);
    match room {
        0 => {}
        1..=6 => samples.push(Sample::sae(0x1000, 1)),
        _ => samples.push(Sample::sae(0x1001, random.number())),
    }
    Scene::holding(0x18, &samples, random).case()
}

/// Each form at each width, with limits of its own.
fn forms_and_widths(random: &mut Random) -> Vec<Case> {
    let mut list = Vec::new();
    for form in UNM..=PKT {
        for width in 1..=64 {
            let (prn, _) = own_rows(0, form, width);
            let slot = own_slot(&prn, random);
            let item = Sample::own(prn, Some(slot), raw(&slot, random));
            let bit = random.below(8);
            let samples = match bit {
                0 => vec![item],
                _ => vec![Sample::pad(bit), item],
            };
            list.push(Scene::holding(0x18, &samples, random).case());
        }
    }
    list
}

/// Numbers and states of each width at their limits and one beyond, one PRN
/// for all of them.
fn limits_of_widths(random: &mut Random) -> Vec<Case> {
    let mut list = Vec::new();
    for form in [UNM, SNM, SED] {
        for width in 1..=32 {
            let (prn, mut slot) = own_rows(0, form, width);
            let ones = all_ones(width);
            (slot.lowest, slot.highest) = match form {
                SNM => (!(ones >> 2), ones >> 2),
                _ => (ones / 3, ones - ones / 3),
            };
            let (lowest, highest) = limits(&slot);
            let near = [lowest - 1, lowest, highest, highest + 1];
            let items = near.map(|raw| Sample::own(prn, Some(slot), raw as u64));
            let together = (64 / usize::from(width)).min(4);
            for items in items.chunks(together) {
                list.push(Scene::holding(0x18, items, random).case());
            }
        }
    }
    list
}

fn scaled(place: u16, form: u8, width: u8, scale: (u16, u16, i32), raw: u64) -> Sample {
    let (prn, slot) = own_rows(place, form, width);
    let slot = Slot {
        multiplier: scale.0,
        divisor: scale.1,
        offset: scale.2,
        ..slot
    };
    Sample::own(prn, Some(slot), raw)
}

/// Two numbers of random scales in one frame.
fn values(random: &mut Random) -> Vec<Case> {
    let mut list = Vec::new();
    for _ in 0..220 {
        let items = [0, 1].map(|place| {
            let form = random.pick(&[UNM, SNM]);
            let width = random.between(1, 32) as u8;
            let other = random_slot(random);
            let scale = (other.multiplier, other.divisor, other.offset);
            scaled(place, form, width, scale, random.number())
        });
        list.push(Scene::holding(0x18, &items, random).case());
    }
    list
}

/// Every field of a value at its ends.
fn ends_of_fields(random: &mut Random) -> Vec<Case> {
    let mut list = Vec::new();
    for offset in [i32::MIN, -1, 0, 1, i32::MAX] {
        for multiplier in [0, 1, 65535] {
            for divisor in [1, 3, 32768, 65535] {
                let scale = (multiplier, divisor, offset);
                let most = scaled(0, UNM, 32, scale, 0xFFFF_FFFF);
                let least = scaled(1, SNM, 32, scale, 0x8000_0000);
                list.push(Scene::holding(0x18, &[most, least], random).case());
            }
        }
    }
    list
}

/// Whole numbers above the line that come out as zero.
fn zeros(random: &mut Random) -> Vec<Case> {
    let mut list = Vec::new();
    for (form, scale, raw) in [
        (SNM, (8, 7, 40), -5_i64),
        (SNM, (1, 65535, 1), -1),
        (UNM, (8, 7, -40), 5),
        (UNM, (0, 3, 0), 77),
        (UNM, (1, 1, -255), 255),
        (SNM, (3, 2, 0), 0),
    ] {
        let item = scaled(0, form, 8, scale, raw as u64);
        list.push(Scene::holding(0x48, &[item], random).case());
    }
    list
}

/// Each byte by itself, and bytes about the ends in each place of a text.
fn texts(random: &mut Random) -> Vec<Case> {
    let mut list = Vec::new();
    let (prn, slot) = own_rows(0, ASC, 8);
    let bytes: Vec<Sample> = (0..=255)
        .map(|byte| Sample::own(prn, Some(slot), byte))
        .collect();
    for samples in bytes.chunks(9) {
        list.push(Scene::holding(0x18, samples, random).case());
    }
    for width in [16, 24, 32] {
        let (prn, slot) = own_rows(0, ASC, width);
        for place in 0..u32::from(width) / 8 {
            for byte in [0x00, 0x1F, 0x20, 0x7E, 0x7F, 0x80, 0xA0, 0xFF] {
                let others = 0x4142_4344 & !(0xFF << (8 * place));
                let item = Sample::own(prn, Some(slot), others | byte << (8 * place));
                list.push(Scene::holding(0x48, &[item], random).case());
            }
        }
    }
    list
}

/// Each digit by itself, and digits about 9 in each place.
fn digits(random: &mut Random) -> Vec<Case> {
    let (prn, slot) = own_rows(0, BCD, 4);
    let each: Vec<Sample> = (0..16)
        .map(|digit| Sample::own(prn, Some(slot), digit))
        .collect();
    let mut list = vec![Scene::holding(0x18, &each, random).case()];
    for width in (4..=32).step_by(4) {
        let (prn, slot) = own_rows(0, BCD, width);
        for place in 0..u32::from(width) / 4 {
            for digit in [9, 10, 15] {
                let others = 0x1234_5678 & !(0xF << (4 * place));
                let item = Sample::own(prn, Some(slot), others | digit << (4 * place));
                list.push(Scene::holding(0x18, &[item], random).case());
            }
        }
    }
    list
}
