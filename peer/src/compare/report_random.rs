//! Random pairs of supplement and frame: most have a layout for the frame, and
//! every refusal comes often.

use super::{frame_random, supplement_random};
use crate::case::Case;
use crate::frame::bus::Bus;
use crate::random::Random;
use crate::report::line::LONGEST;
use crate::report::neighbours::with_others;
use crate::report::scene::Scene;
use crate::report::scene_random::scene_on;
use crate::supplement::draft::{add_distinct, kinds_of_length, shuffle, Bytes, Layouts};

pub fn case(random: &mut Random) -> Case {
    let bus = random_bus(random);
    let scene = scene_on(bus, random);
    let mut records = with_others(&scene, random);
    let mut runs = scene.runs();
    match random.below(40) {
        0 | 1 => frame_random::spoil_runs(bus, &mut runs, random),
        2 | 3 => supplement_random::spoil(&mut records, random),
        4 => {
            frame_random::spoil_runs(bus, &mut runs, random);
            supplement_random::spoil(&mut records, random);
        }
        5 => runs = frame_random::runs(bus, random),
        6 => records = vec![supplement_random::supplement(random)],
        7 => records = with_near_sae(&scene, random),
        8 => add_many(&mut records, random),
        9..=13 => drop_some(&mut records, random),
        _ => {}
    }
    let case = Case::report_on(bus, records.concat(), runs);
    let out_length = out_length(&case, random);
    case.lent(out_length)
}

/// ISO 9141-2 has fewer kinds of frame: one in three is of it.
pub fn random_bus(random: &mut Random) -> Bus {
    match random.once_in(3) {
        true => Bus::Iso9141,
        false => Bus::J1850,
    }
}

/// The records of the layout alone, and what the SAE tables say of its PRNs.
fn with_near_sae(scene: &Scene, random: &mut Random) -> Vec<Bytes> {
    let mut records = scene.seeking_records();
    if random.once_in(2) {
        supplement_random::spoil(&mut records, random);
    }
    records
}

/// Now and then as many as fit, or more.
fn add_many(records: &mut Vec<Bytes>, random: &mut Random) {
    let kinds = if random.once_in(40) {
        let own: usize = records.iter().map(Vec::len).sum();
        let length = supplement_random::large(random).saturating_sub(own);
        kinds_of_length(length.max(300), Layouts::Few, random)
    } else {
        supplement_random::kinds(random)
    };
    add_distinct(records, &kinds, random);
    shuffle(records, random);
}

fn drop_some(records: &mut Vec<Bytes>, random: &mut Random) {
    let turns = random.pick(&[2, 3, 6]);
    records.retain(|_| !random.once_in(turns));
}

/// Mostly enough; one in eight is near the need.
fn out_length(case: &Case, random: &mut Random) -> usize {
    if !random.once_in(8) {
        return LONGEST + random.below(10);
    }
    let need = case.need().unwrap_or(6);
    match random.below(6) {
        0 | 1 => need - 1,
        2 => random.below(need),
        3 | 4 => need,
        _ => need + 1,
    }
}
