//! Frames and layouts that meet or miss each other, refusals in their order,
//! and lent outputs of each length.

use crate::case::Case;
use crate::frame::bus::{Bus, Runs};
use crate::random::Random;
use crate::report::line::LONGEST;
use crate::report::neighbours::near_layouts;
use crate::report::scene::{frame, own_rows, Sample, Scene};
use crate::report::scene_random::scene_on;
use crate::sae::form::UNM;
use crate::sae::{Prn, PRNS, SLOTS};
use crate::supplement::draft::{
    distinct, kinds_of_length, layout_record, prn_record, slot_record, Bytes, Layouts,
};
use crate::supplement::layout::Layout;
use crate::supplement::{refusal, MOST_BYTES};

/// The longest output that a case lends.
pub const MOST_LENT: usize = LONGEST + 8;

pub fn cases(random: &mut Random) -> Vec<Case> {
    let groups = [
        first_bytes(random),
        kinds(random),
        near_keys(random),
        refusals(Bus::J1850, random),
        high_places(random),
        sizes(random),
        lent(Bus::J1850, 25, random),
        lent_longest(Bus::J1850, random),
        random_scenes(Bus::J1850, 350, random),
    ];
    groups.into_iter().flatten().collect()
}

/// Each first byte with a layout for it.
fn first_bytes(random: &mut Random) -> Vec<Case> {
    let items = [Sample::sae(0x1025, 0x65)];
    (0..=255)
        .map(|first_byte| Scene::holding(first_byte, &items, random).case())
        .collect()
}

/// Each kind and form, with and without data, with the response at its
/// shortest and longer.
fn kinds(random: &mut Random) -> Vec<Case> {
    let mut list = Vec::new();
    for first_byte in crate::frame::draft::FIRST_BYTES {
        for data in [0, 1, 2] {
            let mut scene = Scene::of(frame(first_byte, data, random));
            list.push(scene.case());
            scene.add(&Sample::sae(0x1025, 0x65));
            list.push(scene.case());
            list.push(Case::report(Vec::new(), scene.frame.runs()));
            let more = random.bytes(2);
            scene.frame.response.extend(more);
            list.push(scene.case());
        }
    }
    list
}

/// Layouts one field away from the one sought, without it and around it.
fn near_keys(random: &mut Random) -> Vec<Case> {
    let mut list = Vec::new();
    for first_byte in [0xF8, 0x12, 0xE8, 0x00] {
        for data in [vec![], vec![0, 0x65], vec![0x41, 0x65]] {
            let mut frame = frame(first_byte, 0, random);
            frame.data = data;
            let scene = Scene::of(frame);
            let sought = scene.layout.with_prns(&[0x1025]);
            let near: Vec<Bytes> = near_layouts(&sought).iter().map(layout_record).collect();
            let sought = layout_record(&sought);
            for (place, other) in near.iter().enumerate() {
                let mut all = near.clone();
                all.insert(place, sought.clone());
                list.push(Case::report(other.clone(), scene.frame.runs()));
                if place < 3 {
                    list.push(Case::report(all.concat(), scene.frame.runs()));
                }
            }
            let last = [near.concat(), sought].concat();
            list.push(Case::report(last, scene.frame.runs()));
        }
    }
    list
}

/// Runs that the reader of the bus refuses so, or accepts.
fn runs(bus: Bus, number: u8, random: &mut Random) -> Runs {
    let mut sound = bus.checked(&[0x48, 0x6B, 0x10, 0x41, 0x65, 0x80]);
    match number {
        1 => (bus.checked(&random.bytes(12)), Vec::new()),
        2 => (Vec::new(), Vec::new()),
        3 => {
            sound[4] ^= 1;
            (sound, Vec::new())
        }
        4 => (bus.checked(&[0x05, 0x6B, 0x10]), Vec::new()),
        50 => (sound, vec![0x6B]),
        51 => (bus.checked(&[0x00, 0x6B, 0x10]), Vec::new()),
        52 => (bus.checked(&[0x13, 0x41]), vec![7]),
        53 => (bus.checked(&[0x11, 0x41]), vec![7, 7]),
        6 => (bus.checked(&[0x13, 0x41]), vec![7, 7]),
        9 => (bus.checked(&[0x58, 0x6B, 0x10, 0x41]), Vec::new()),
        _ => (sound, Vec::new()),
    }
}

/// A record that is refused so after the layout of the whole report.
fn faulty_record(number: u8) -> Bytes {
    match number {
        refusal::UNKNOWN_KIND => vec![9],
        refusal::CUT => vec![2, 0x20, 0x00],
        refusal::RANGE => prn_record(&Prn::new(0x2000, 0, 8, 101)),
        refusal::SEEN_BEFORE => bench_layout(),
        _ => slot_record(&SLOTS[30]),
    }
}

fn bench_layout() -> Bytes {
    let layout = Layout::of_key([0x08, 0x6B, 1, 0x41, 0]);
    layout_record(&layout.with_prns(&[0x1025, 0x100B]))
}

/// Each refusal of the supplement beside each of the frame, with an output
/// lent and without.
pub fn refusals(bus: Bus, random: &mut Random) -> Vec<Case> {
    let mut list = Vec::new();
    let of_frames: &[u8] = match bus {
        Bus::J1850 => &[0, 1, 2, 3, 4, 50, 51, 52, 53, 6],
        Bus::Iso9141 => &[0, 1, 2, 3, 9],
    };
    for of_frame in of_frames {
        for out_length in [0, 5, LONGEST] {
            let sound = Case::report_on(bus, bench_layout(), runs(bus, *of_frame, random));
            list.push(sound.clone().lent(out_length));
            for number in refusal::UNKNOWN_KIND..=refusal::IN_SAE {
                let mut case = sound.clone().lent(out_length);
                case.inputs[0].extend(faulty_record(number));
                list.push(case);
            }
        }
    }
    let prn_again = [bench_layout(), prn_record(&PRNS[100])].concat();
    list.push(Case::report_on(bus, prn_again, runs(bus, 0, random)));
    list
}

/// Each refusal of the supplement at a place of two bytes.
fn high_places(random: &mut Random) -> Vec<Case> {
    let mut list = Vec::new();
    for number in refusal::UNKNOWN_KIND..=refusal::IN_SAE {
        let kinds = kinds_of_length(250 + usize::from(number), Layouts::Few, random);
        let mut records = distinct(&kinds, random);
        records.push(match number {
            refusal::SEEN_BEFORE => records[0].clone(),
            _ => faulty_record(number),
        });
        let runs = runs(Bus::J1850, 0, random);
        list.push(Case::report(records.concat(), runs));
    }
    list
}

/// Supplements as long as can be and longer.
fn sizes(random: &mut Random) -> Vec<Case> {
    let layout = bench_layout();
    let mut others = kinds_of_length(MOST_BYTES - layout.len(), Layouts::Few, random);
    others.sort();
    let mut records = distinct(&others, random);
    records.push(layout);
    let most = records.concat();
    let longer = [&most[..], &[9]].concat();
    let with_runs = |supplement: &[u8], number: u8, random: &mut Random| {
        Case::report(supplement.to_vec(), runs(Bus::J1850, number, random))
    };
    vec![
        with_runs(&most, 0, random),
        with_runs(&longer, 0, random),
        with_runs(&longer, 3, random),
        with_runs(&longer, 0, random).lent(0),
    ]
}

/// Reports of many lengths with outputs about their length.
pub fn lent(bus: Bus, count: usize, random: &mut Random) -> Vec<Case> {
    let mut list = Vec::new();
    for _ in 0..count {
        let case = scene_on(bus, random).case();
        let need = case.need().expect("an accepted scene");
        for out_length in [need - 1, need, need + 1, MOST_LENT] {
            list.push(case.clone().lent(out_length));
        }
    }
    list
}

/// The longest report with every length lent.
pub fn lent_longest(bus: Bus, random: &mut Random) -> Vec<Case> {
    let (own, slot) = own_rows(0, UNM, 3);
    let (first_byte, prn, slot) = match bus {
        Bus::J1850 => (0x18, Prn::new(0x2000, UNM, 4, 1), None),
        Bus::Iso9141 => (0x48, own, Some(slot)),
    };
    let items: Vec<Sample> = (0..16).map(|raw| Sample::own(prn, slot, raw)).collect();
    let case = Scene::holding(first_byte, &items, random).on(bus).case();
    (0..=MOST_LENT)
        .map(|out_length| case.clone().lent(out_length))
        .collect()
}

/// Random scenes, now and then without one of their records or with a bit
/// turned over.
pub fn random_scenes(bus: Bus, count: usize, random: &mut Random) -> Vec<Case> {
    let mut list = Vec::new();
    while list.len() < count {
        let scene = scene_on(bus, random);
        let mut records = scene.records();
        if random.once_in(3) {
            records.remove(random.below(records.len()));
        }
        if records.len() > 6 {
            continue;
        }
        let mut case = scene.case_under(records.concat());
        if random.once_in(6) {
            let run = random.below(case.inputs.len());
            random.flip_bit(&mut case.inputs[run]);
        }
        list.push(case.lent(random.pick(&[LONGEST, LONGEST, 60, MOST_LENT])));
    }
    list
}
