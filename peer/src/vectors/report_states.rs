//! Codes of SED SLOTs that have gaps between their states, and records with the
//! keys of these SLOTs.

use crate::case::Case;
use crate::random::Random;
use crate::report::scene::{whole_slot, Sample, Scene};
use crate::sae::{all_ones, prn_row, Prn};
use crate::supplement::draft::slot_record;

/// PRNs of such SLOTs.
const GAPPED: [u16; 4] = [0x1808, 0x1810, 0x1806, 0x1047];

pub fn cases(random: &mut Random) -> Vec<Case> {
    let mut list = vec![Scene::holding(0x48, &[Sample::sae(0x1806, 2)], random).case()];
    list.extend(every_code(random));
    list.extend(keys_again(random));
    list
}

fn row(prn: u16) -> Prn {
    prn_row(prn).expect("an SAE row")
}

/// Each code, eight to a frame: those between two states are states, whatever
/// J2178-2 calls them.
fn every_code(random: &mut Random) -> Vec<Case> {
    let mut list = Vec::new();
    for prn in GAPPED {
        let codes = 0..=all_ones(row(prn).width);
        let samples: Vec<Sample> = codes.map(|code| Sample::sae(prn, code.into())).collect();
        for samples in samples.chunks(8) {
            list.push(Scene::holding(0x18, samples, random).case());
        }
    }
    list
}

/// A SLOT record that would take every code, after the layout.
fn keys_again(random: &mut Random) -> Vec<Case> {
    let mut list = Vec::new();
    for prn in GAPPED {
        let mut case = Scene::holding(0x48, &[Sample::sae(prn, 3)], random).case();
        let (form, width, number) = row(prn).slot_key();
        let record = slot_record(&whole_slot(form, width, number));
        case.inputs[0].extend(record);
        list.push(case);
    }
    list
}
