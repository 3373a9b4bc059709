//! Items of both tables: each SAE row, and PRNs and SLOTs from each side.

use crate::case::Case;
use crate::random::Random;
use crate::report::item::limits;
use crate::report::scene::{own_rows, whole_slot, Sample, Scene, OWN_PRN};
use crate::report::scene_random::raw;
use crate::sae::form::*;
use crate::sae::{all_ones, slot_row, Prn, Slot, PRNS, SLOTS};
use crate::supplement::draft::shuffle;

pub fn cases(random: &mut Random) -> Vec<Case> {
    let groups = [
        sae_prns(random),
        sae_slots(random),
        sae_prns_with_own_slots(random),
        sources(random),
        near_slots(random),
        orders(random),
    ];
    groups.into_iter().flatten().collect()
}

/// Both forms by turns.
fn first_byte(place: usize) -> u8 {
    [0x18, 0x48][place % 2]
}

/// Each PRN with bits that its SLOT takes, or any.
fn sae_prns(random: &mut Random) -> Vec<Case> {
    let mut list = Vec::new();
    for (place, row) in PRNS.iter().enumerate() {
        let raw = match slot_row(row.slot_key()) {
            Some(slot) => raw(&slot, random),
            None => random.number(),
        };
        let sample = Sample::sae(row.prn, raw);
        list.push(Scene::holding(first_byte(place), &[sample], random).case());
    }
    list
}

/// Each SLOT at its limits and beside them, through a PRN of the supplement.
fn sae_slots(random: &mut Random) -> Vec<Case> {
    let mut list = Vec::new();
    for slot in SLOTS {
        let mut raws = raws_of(slot, random);
        raws.dedup();
        let (form, width, number) = slot.key();
        let prn = Prn::new(OWN_PRN, form, width, number);
        let samples: Vec<Sample> = raws
            .iter()
            .map(|raw| Sample::own(prn, None, *raw))
            .collect();
        let together = (64 / usize::from(width)).clamp(1, 8);
        for samples in samples.chunks(together) {
            list.push(Scene::holding(0x18, samples, random).case());
        }
    }
    list
}

/// Numbers and states at both limits, and one beyond where the width has it.
fn raws_of(slot: &Slot, random: &mut Random) -> Vec<u64> {
    let (lowest, highest) = limits(slot);
    let ones = all_ones(slot.width);
    match slot.form {
        UNM | SED => {
            let near = [lowest, highest, lowest - 1, highest + 1];
            let is_of_width = |raw: &i64| (0..=i64::from(ones)).contains(raw);
            near.into_iter()
                .filter(is_of_width)
                .map(|raw| raw as u64)
                .collect()
        }
        SNM => vec![lowest as u64, highest as u64, 0, u64::MAX],
        _ => vec![raw(slot, random), random.number()],
    }
}

/// SAE rows whose SLOT the tables lack, with one from the supplement.
fn sae_prns_with_own_slots(random: &mut Random) -> Vec<Case> {
    let mut list = Vec::new();
    let mut keys = Vec::new();
    for row in PRNS {
        let (form, width, number) = row.slot_key();
        if slot_row(row.slot_key()).is_some() || keys.contains(&row.slot_key()) {
            continue;
        }
        keys.push(row.slot_key());
        let slot = whole_slot(form, width, number);
        let sample = Sample {
            slot: Some(slot),
            ..Sample::sae(row.prn, raw(&slot, random))
        };
        list.push(Scene::holding(first_byte(list.len()), &[sample], random).case());
    }
    list
}

/// PRN and SLOT each from the SAE tables, from the supplement or from none.
fn sources(random: &mut Random) -> Vec<Case> {
    let (own, slot) = own_rows(0, BMP, 8);
    let text = whole_slot(ASC, 8, 11);
    let choices = [
        Sample::sae(0x1025, 0x65),
        Sample {
            slot: Some(text),
            ..Sample::sae(0x100D, 0x41)
        },
        Sample::sae(0x1805, 0x42),
        Sample::own(own, Some(slot), 0x43),
        Sample::own(Prn::new(0x2001, UNM, 8, 102), None, 0x44),
        Sample::own(Prn::new(0x2002, BMP, 8, 1002), None, 0x45),
        Sample::missing(0x2003),
    ];
    let mut list = Vec::new();
    for a in choices {
        for b in choices {
            list.push(Scene::holding(0x48, &[a, b, choices[0]], random).case());
        }
    }
    list
}

/// PRNs that name a SLOT one field away from one of the SAE tables or of the
/// supplement.
fn near_slots(random: &mut Random) -> Vec<Case> {
    let mut list = Vec::new();
    for (form, width, number) in [(UNM, 8, 101), (BMP, 8, 1), (SED, 8, 7), (UNM, 8, 1000)] {
        for (form, width, number) in [
            (form + 1, width, number),
            (form, width + 1, number),
            (form, width, number + 256),
            (form, width, number + 900),
        ] {
            let prn = Prn::new(OWN_PRN, form, width, number);
            let mut own = Sample::own(prn, None, 1);
            list.push(Scene::holding(0x18, &[own], random).case());
            own.slot = Some(whole_slot(UNM, 8, 1000));
            list.push(Scene::holding(0x18, &[own], random).case());
        }
    }
    list
}

/// One scene with its records in several orders, and others among them.
fn orders(random: &mut Random) -> Vec<Case> {
    let mut list = Vec::new();
    for _ in 0..24 {
        let rows = [
            own_rows(0, UNM, 5),
            own_rows(1, SNM, 6),
            own_rows(2, BCD, 8),
        ];
        let samples = rows.map(|(prn, slot)| Sample::own(prn, Some(slot), 0x15));
        let scene = Scene::holding(0x18, &samples, random);
        let mut records = scene.records();
        shuffle(&mut records, random);
        list.push(Case::report(records.concat(), scene.frame.runs()));
    }
    list
}
