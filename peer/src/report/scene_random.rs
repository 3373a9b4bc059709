//! Random scenes: most have a layout for their frame, items of every form and
//! width from both tables, and bits that mean something.

use super::item::{limits, raw_number};
use super::scene::{Sample, Scene};
use crate::frame::bus::Bus;
use crate::frame::draft::{random_first_byte, room, Draft};
use crate::frame::header::response_kind;
use crate::frame::iso::fitting_first_byte;
use crate::random::Random;
use crate::sae::form::*;
use crate::sae::{all_ones, has_prn, prn_row, slot_row, Prn, Slot, PRNS, SLOTS};
use crate::supplement::draft::{random_prn, random_slot};
use crate::supplement::record::PLACES;

/// What the kind 4 record of a scene's header says; as often there is none.
const RECORDED: [Option<u8>; 8] = [None, None, None, None, Some(0), Some(1), Some(2), Some(2)];

/// A scene on J1850.
pub fn scene(random: &mut Random) -> Scene {
    scene_on(Bus::J1850, random)
}

pub fn scene_on(bus: Bus, random: &mut Random) -> Scene {
    let first_byte = match bus {
        Bus::J1850 => random_first_byte(random),
        Bus::Iso9141 => fitting_first_byte(random.byte()),
    };
    let recorded = random.pick(&RECORDED);
    let mut scene = Scene::of_length(recorded, frame(first_byte, random)).on(bus);
    let aim = match random.below(10) {
        0 => random.below(scene.bits() + 1),
        1 => scene.bits() + random.between(1, 20),
        _ => scene.bits(),
    };
    let places = random.pick(&[PLACES, PLACES, PLACES, 1, 2, 4]);
    let is_narrow = random.once_in(8);
    let is_again = random.once_in(24);
    while scene.end < aim && usize::from(scene.layout.count) < places {
        let mut room = aim - scene.end;
        if is_narrow || is_again {
            room = room.div_ceil(PLACES - usize::from(scene.layout.count));
        }
        let same = again(&scene, random).filter(|_| is_again);
        let sample = same.unwrap_or_else(|| sample(room, &scene, random));
        scene.add(&sample);
        if sample.row.is_none() && random.once_in(2) {
            break;
        }
    }
    scene
}

/// Longer data more often.
fn frame(first_byte: u8, random: &mut Random) -> Draft {
    let room = room(first_byte);
    let response = match response_kind(first_byte) {
        Some(0) => 0,
        Some(1) => 1,
        _ => random.pick(&[1, 1, 1, 2, 3]),
    };
    let most = room - response;
    let data = match random.below(8) {
        0 => 0,
        1 => 1,
        2..=4 => most,
        _ => random.between(1, most),
    };
    let first_byte = with_other_type(first_byte, random);
    Draft::of_lengths(first_byte, data, response, random)
}

/// Now and then another type of the same kind.
fn with_other_type(first_byte: u8, random: &mut Random) -> u8 {
    let other = first_byte ^ random.pick(&[0, 1, 2, 3, 4, 5, 6, 7]);
    if response_kind(other) == response_kind(first_byte) {
        other
    } else {
        first_byte
    }
}

/// An item that fits `room` bits, mostly.
fn sample(room: usize, scene: &Scene, random: &mut Random) -> Sample {
    match random.below(100) {
        0..=27 => of_sae(room, random),
        28..=42 => with_sae_slot(room, scene, random),
        43..=49 => again(scene, random).unwrap_or_else(|| of_sae(room, random)),
        50..=52 => Sample::missing(new_prn(scene, random)),
        53..=58 => Sample::own(own_prn(room, scene, random), None, random.number()),
        _ => {
            let prn = own_prn(room, scene, random);
            let known = scene.slots.iter().find(|slot| slot.key() == prn.slot_key());
            let slot = known.copied().unwrap_or_else(|| own_slot(&prn, random));
            scaled(prn, slot, random)
        }
    }
}

/// Bits for an item; now and then the scale is made of the ends of its fields, or
/// the offset makes their value zero.
fn scaled(prn: Prn, mut slot: Slot, random: &mut Random) -> Sample {
    if random.once_in(4) {
        slot.multiplier = random.pick(&[0, 1, u16::MAX, u16::MAX]);
        slot.divisor = random.pick(&[1, 1, 2, u16::MAX]);
        slot.offset = random.pick(&[i32::MIN, -1, 0, 1, i32::MAX]);
    }
    let raw = raw(&slot, random);
    if random.once_in(16) && slot.width <= 32 {
        let number = raw_number(&slot, raw as u32 & all_ones(slot.width));
        let product = number * i64::from(slot.multiplier);
        slot.offset = i32::try_from(-product).unwrap_or(slot.offset);
    }
    Sample::own(prn, Some(slot), raw)
}

/// A number that is a PRN in no table and not yet in the scene.
fn new_prn(scene: &Scene, random: &mut Random) -> u16 {
    loop {
        let prn = random_prn(random).prn;
        if !scene.layout.used().contains(&prn) {
            return prn;
        }
    }
}

fn of_sae(room: usize, random: &mut Random) -> Sample {
    let mut row = random.pick(PRNS);
    for _ in 0..8 {
        if usize::from(row.width) <= room {
            break;
        }
        row = random.pick(PRNS);
    }
    let slot = slot_row(row.slot_key());
    let raw = match slot {
        Some(slot) => raw(&slot, random),
        None => random.number(),
    };
    let mut sample = Sample::sae(row.prn, raw);
    // some rows have no SLOT in the SAE tables
    if slot.is_none() && random.once_in(2) {
        sample.slot = Some(own_slot(&row, random));
    }
    sample
}

/// A PRN of the supplement that names a SLOT of the SAE tables.
fn with_sae_slot(room: usize, scene: &Scene, random: &mut Random) -> Sample {
    let fitting: Vec<&Slot> = SLOTS
        .iter()
        .filter(|slot| usize::from(slot.width) <= room)
        .collect();
    let slot = fitting[random.below(fitting.len())];
    let (form, width, number) = slot.key();
    let prn = Prn::new(new_prn(scene, random), form, width, number);
    Sample::own(prn, None, raw(slot, random))
}

/// A PRN that the layout has already.
fn again(scene: &Scene, random: &mut Random) -> Option<Sample> {
    let used = scene.layout.used();
    if used.is_empty() {
        return None;
    }
    let prn = random.pick(used);
    let raw = random.number();
    let row = scene.prns.iter().find(|row| row.prn == prn).copied();
    match row {
        Some(row) => Some(Sample::own(row, None, raw)),
        None if has_prn(prn) => Some(Sample::own(prn_row(prn)?, None, raw)),
        None => Some(Sample::missing(prn)),
    }
}

/// A PRN of any form and width, small more often.
fn own_prn(room: usize, scene: &Scene, random: &mut Random) -> Prn {
    let most = match random.below(20) {
        0 => 64,
        1..=9 => room.min(16),
        _ => room.min(64),
    };
    let form = random.pick(&[UNM, UNM, SNM, SNM, SED, BMP, ASC, BCD, UNM, BMM, SFP, PKT]);
    let mut width = random.between(1, most) as u8;
    let unit = [(ASC, 8), (BCD, 4)].iter().find(|unit| unit.0 == form);
    if let (Some((_, unit)), false) = (unit, random.once_in(4)) {
        width = (width / unit * unit).max(*unit);
    }
    let number = random_slot(random).number;
    Prn::new(new_prn(scene, random), form, width, number)
}

/// A SLOT for this PRN; the limits of numbers and states hold all raw numbers,
/// some, or few.
pub fn own_slot(prn: &Prn, random: &mut Random) -> Slot {
    let (form, width, number) = prn.slot_key();
    let ones = all_ones(width);
    let mut ends = match random.below(8) {
        0..=3 => (0, ones),
        4 => (random.number() as u32 & ones, random.number() as u32 & ones),
        5 => (random.number() as u32, random.number() as u32),
        6 => (0, random.number() as u32 & ones),
        _ => (random.number() as u32 & ones, ones),
    };
    if form == SNM {
        let extended = |end: u32| super::bits::signed(end, width) as u32;
        ends = match ends {
            (0, end) if end == ones => (!(ones >> 1), ones >> 1),
            (from, to) => (extended(from), extended(to)),
        };
        if ends.0 as i32 > ends.1 as i32 {
            ends = (ends.1, ends.0);
        }
    } else if ends.0 > ends.1 {
        ends = (ends.1, ends.0);
    }
    Slot {
        form,
        width,
        number,
        lowest: ends.0,
        highest: ends.1,
        ..random_slot(random)
    }
}

/// Bits that the SLOT takes, four times in five; else any, or those beside a
/// limit.
pub fn raw(slot: &Slot, random: &mut Random) -> u64 {
    let (lowest, highest) = limits(slot);
    let near = [lowest - 1, lowest, highest, highest + 1];
    match (random.below(10), slot.form) {
        (0, _) => random.number(),
        (1, ASC) => spell(8, || random.pick(&[0x1F, 0x20, 0x41, 0x7E, 0x7E, 0x7F])),
        (1, BCD) => spell(4, || random.pick(&[0, 7, 8, 9, 9, 9, 10])),
        (1, _) => random.pick(&near) as u64,
        (_, ASC) => spell(8, || random.between(0x20, 0x7E)),
        (_, BCD) => spell(4, || random.below(10)),
        _ => inside(slot, random),
    }
}

/// Pieces of `size` bits each, as many as 64 bits have.
fn spell(size: usize, mut piece: impl FnMut() -> usize) -> u64 {
    (0..64 / size).fold(0, |raw, _| raw << size | piece() as u64)
}

/// A raw number between the limits, if they leave one in the width.
fn inside(slot: &Slot, random: &mut Random) -> u64 {
    let (lowest, highest) = limits(slot);
    let ones = i64::from(all_ones(slot.width));
    let (least, most) = if slot.form == SNM {
        (-(ones + 1) / 2, ones / 2)
    } else {
        (0, ones)
    };
    let (from, to) = (lowest.max(least), highest.min(most));
    if from > to {
        return random.number();
    }
    (from + random.below((to - from + 1) as usize) as i64) as u64
}
