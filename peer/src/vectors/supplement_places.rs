//! Faults at each place among other records, several faults, cuts and sizes.

use super::supplement_keys::with_key_of;
use crate::random::Random;
use crate::sae::{PRNS, SLOTS};
use crate::supplement::draft::{
    distinct, kinds_of_length, old_layout_record, prn_record, random_kind, random_layout,
    random_record, slot_record, Bytes, Layouts, COUNT_PLACE,
};
use crate::supplement::layout::Layout;
use crate::supplement::record::{length, length_of, KINDS, LAYOUT, PRN, SELECTOR_LENGTH, SLOT};
use crate::supplement::{refusal, MOST_BYTES};

pub fn cases(random: &mut Random) -> Vec<Bytes> {
    let groups = [
        vec![Vec::new()],
        unknown_kinds(random),
        cuts(random),
        faults_among_others(random),
        two_faults_in_one(random),
        two_faulty_records(random),
        high_places(random),
        old_form(random),
        sizes(random),
        sound(random),
    ];
    groups.into_iter().flatten().collect()
}

/// The refusals that a whole record can have.
const OF_WHOLE: [u8; 3] = [refusal::RANGE, refusal::SEEN_BEFORE, refusal::IN_SAE];

/// A record of this kind that is refused so, once `earlier` stands before it;
/// none where there is no such record.
fn faulty(number: u8, kind: u8, earlier: &[Bytes], random: &mut Random) -> Option<Bytes> {
    let mut record = random_record(kind, random);
    match number {
        refusal::UNKNOWN_KIND => record[0] = random.pick(&[0, 5, 6, 0x81, 0xFF]),
        refusal::CUT => record.truncate(random.between(1, record.len() - 1)),
        refusal::RANGE => break_range(&mut record, random),
        refusal::SEEN_BEFORE => {
            let same_kind = earlier.iter().find(|other| other[0] == kind)?;
            record = with_key_of(same_kind, random);
        }
        _ => record = with_sae_key(kind, random)?,
    }
    Some(record)
}

/// Puts a field out of its range that is no part of the key.
pub fn break_range(record: &mut [u8], random: &mut Random) {
    match record[0] {
        SLOT => record[7..9].fill(0),
        PRN => record[3] = random.pick(&[0, 10, 255]),
        LAYOUT => record[COUNT_PLACE] = random.pick(&[17, 18, 255]),
        _ => record[3] = random.pick(&[3, 4, 255]),
    }
}

pub fn with_sae_key(kind: u8, random: &mut Random) -> Option<Bytes> {
    match kind {
        SLOT => Some(slot_record(&random.pick(SLOTS))),
        PRN => Some(prn_record(&random.pick(PRNS))),
        _ => None,
    }
}

/// Each unknown kind byte by itself, and before or after other records.
fn unknown_kinds(random: &mut Random) -> Vec<Bytes> {
    let mut list = Vec::new();
    for byte in (0..=255).filter(|byte| length(*byte).is_none()) {
        let record = random_record(PRN, random);
        let beside = match byte % 3 {
            0 => [&[byte], &record[..]].concat(),
            1 => [&record[..], &[byte]].concat(),
            _ => [&record[..], &[byte], &record].concat(),
        };
        list.push(vec![byte]);
        list.push(beside);
    }
    list
}

/// A record of each kind cut at every byte, alone and after others.
fn cuts(random: &mut Random) -> Vec<Bytes> {
    let mut list = Vec::new();
    for kind in KINDS {
        for length in 1..length_of(kind) {
            for before in [&[][..], &[SLOT], &[PRN], &[LAYOUT, SELECTOR_LENGTH]] {
                let kinds = [before, &[kind]].concat();
                let mut records = distinct(&kinds, random);
                records[before.len()].truncate(length);
                list.push(records.concat());
            }
        }
    }
    list
}

/// Each refusal of each kind alone, first, in the middle and last.
fn faults_among_others(random: &mut Random) -> Vec<Bytes> {
    let mut list = Vec::new();
    for kind in KINDS {
        for number in refusal::UNKNOWN_KIND..=refusal::IN_SAE {
            for (before, after) in [(0, 0), (0, 4), (1, 1), (4, 4), (4, 0)] {
                let earlier = others(before, random);
                if let Some(record) = faulty(number, kind, &earlier, random) {
                    let after = others(after, random).concat();
                    list.push([earlier.concat(), record, after].concat());
                }
            }
        }
    }
    list
}

/// Acceptable records, with each kind among the first four.
fn others(count: usize, random: &mut Random) -> Vec<Bytes> {
    let mut kinds = KINDS.to_vec();
    kinds.rotate_left(random.below(KINDS.len()));
    kinds.extend((0..count).map(|_| random_kind(random)));
    distinct(&kinds[..count], random)
}

/// Fields out of range beside a key that is taken, and cut records in which
/// such things can be seen.
fn two_faults_in_one(random: &mut Random) -> Vec<Bytes> {
    let mut list = Vec::new();
    for kind in KINDS {
        let earlier = distinct(&[kind], random);
        for number in OF_WHOLE {
            let Some(record) = faulty(number, kind, &earlier, random) else {
                continue;
            };
            let before = earlier.concat();
            let mut broken = record.clone();
            break_range(&mut broken, random);
            list.push([&before[..], &broken].concat());
            let last = record.len() - 1;
            for length in [last, last.min(record.len() / 2 + 3)] {
                list.push([&before[..], &record[..length]].concat());
                list.push([&before[..], &broken[..length]].concat());
            }
        }
    }
    list
}

/// Each refusal that leaves a next record, before each refusal.
fn two_faulty_records(random: &mut Random) -> Vec<Bytes> {
    let mut list = Vec::new();
    for first_kind in KINDS {
        for later_kind in KINDS {
            for first in OF_WHOLE {
                for later in refusal::UNKNOWN_KIND..=refusal::IN_SAE {
                    let earlier = distinct(&KINDS, random);
                    let first = faulty(first, first_kind, &earlier, random);
                    let later = faulty(later, later_kind, &earlier, random);
                    if let (Some(first), Some(later)) = (first, later) {
                        let between = random_record(PRN, random);
                        list.push([earlier.concat(), first, between, later].concat());
                    }
                }
            }
        }
    }
    list
}

/// Each refusal at a place that takes two bytes.
fn high_places(random: &mut Random) -> Vec<Bytes> {
    let mut list = Vec::new();
    for length in [255, 256, 257, 511, 512, 700] {
        for number in refusal::UNKNOWN_KIND..=refusal::IN_SAE {
            let kinds = kinds_of_length(length, Layouts::Few, random);
            let earlier = distinct(&kinds, random);
            let kind = match number {
                refusal::IN_SAE => random.pick(&[SLOT, PRN]),
                _ => random.pick(&[SLOT, PRN, SELECTOR_LENGTH]),
            };
            if let Some(record) = faulty(number, kind, &earlier, random) {
                list.push([earlier.concat(), record].concat());
            }
        }
    }
    list
}

/// Layouts of one selector byte, as makers had them before, alone and beside
/// records of today.
fn old_form(random: &mut Random) -> Vec<Bytes> {
    let bench = Layout::of_key([0x08, 0x6B, 1, 0x41, 0]).with_prns(&[0x1025, 0x100B]);
    let bare = Layout::of_key([0x08, 0x6B, 0, 0, 0]);
    let old = [bench, bare, random_layout(random)].map(|layout| old_layout_record(&layout));
    let mut list = vec![old.concat()];
    for old in old {
        let other = random_record(random_kind(random), random);
        list.push([&old[..], &other].concat());
        list.push([&other[..], &old].concat());
        list.push(old);
    }
    list
}

/// Lengths about the most, with and without faults.
fn sizes(random: &mut Random) -> Vec<Bytes> {
    let mut list = Vec::new();
    for (length, layouts) in [
        (MOST_BYTES - 1, Layouts::Few),
        (MOST_BYTES, Layouts::Few),
        (MOST_BYTES, Layouts::Many),
        (MOST_BYTES + 1, Layouts::Few),
    ] {
        list.push(records_of_length(length, layouts, random).concat());
    }
    for number in OF_WHOLE {
        list.push(full_with_last(number, random));
    }
    let most_records = vec![SELECTOR_LENGTH; MOST_BYTES / length_of(SELECTOR_LENGTH)];
    list.push(distinct(&most_records, random).concat());
    let mut short = records_of_length(MOST_BYTES - 1, Layouts::Few, random).concat();
    list.push([&short[..], &[0]].concat());
    list.push([&short[..], &[PRN]].concat());
    list.push([&short[..], &[PRN, 1]].concat());
    short[0] = 0;
    list.push([&short[..], &[PRN, 1]].concat());
    list
}

fn records_of_length(length: usize, layouts: Layouts, random: &mut Random) -> Vec<Bytes> {
    distinct(&kinds_of_length(length, layouts, random), random)
}

/// As long as can be, the last record refused so.
fn full_with_last(number: u8, random: &mut Random) -> Bytes {
    let earlier = records_of_length(MOST_BYTES - length_of(PRN), Layouts::Few, random);
    let last = faulty(number, PRN, &earlier, random).expect("a PRN record");
    [earlier.concat(), last].concat()
}

fn sound(random: &mut Random) -> Vec<Bytes> {
    let mut list = Vec::new();
    for _ in 0..120 {
        let count = random.below(9);
        let kinds: Vec<u8> = (0..count).map(|_| random_kind(random)).collect();
        list.push(distinct(&kinds, random).concat());
    }
    list
}
