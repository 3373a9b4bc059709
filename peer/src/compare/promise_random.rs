//! Random pairs of accepted supplements, every record of the first standing in
//! the second, and a frame that both tell of.

use super::report_random::random_bus;
use crate::frame::bus::Bus;
use crate::frame::draft::Draft;
use crate::random::Random;
use crate::report::neighbours::with_others;
use crate::report::scene_random::scene_on;
use crate::supplement::draft::{shuffle, Bytes};
use crate::supplement::record::{LAYOUT, PRN, SELECTOR_LENGTH, SLOT};
use crate::text::hex;
use std::fmt;

pub struct Pair {
    pub bus: Bus,
    pub fewer: Vec<u8>,
    pub more: Vec<u8>,
    pub frame: Draft,
}

impl fmt::Display for Pair {
    fn fmt(&self, f: &mut fmt::Formatter) -> fmt::Result {
        let (fewer, more) = (hex(&self.fewer), hex(&self.more));
        let (first, response) = self.frame.runs_on(self.bus);
        write!(f, "{:?} fewer [{fewer}] more [{more}] ", self.bus)?;
        write!(f, "first [{}] response [{}]", hex(&first), hex(&response))
    }
}

/// Records in any order in both.
pub fn pair(random: &mut Random) -> Pair {
    let scene = scene_on(random_bus(random), random);
    let mut records = with_others(&scene, random);
    if random.once_in(8) {
        take_away(&mut records, random);
    }
    let more = records.concat();
    take_away(&mut records, random);
    shuffle(&mut records, random);
    Pair {
        bus: scene.bus,
        fewer: records.concat(),
        more,
        frame: scene.frame,
    }
}

fn take_away(records: &mut Vec<Bytes>, random: &mut Random) {
    match random.below(20) {
        0 => {}
        1..=7 if !records.is_empty() => {
            records.remove(random.below(records.len()));
        }
        8 => records.retain(|record| record[0] != LAYOUT),
        9 => records.retain(|record| record[0] != PRN),
        10 => records.retain(|record| record[0] != SLOT),
        11 => records.clear(),
        12 => records.retain(|record| record[0] != SELECTOR_LENGTH),
        13..=15 => take_header_away(records, random),
        _ => {
            let turns = random.pick(&[2, 3, 5]);
            records.retain(|_| !random.once_in(turns));
        }
    }
}

/// One kind 4 record, and what layouts there are for its header.
fn take_header_away(records: &mut Vec<Bytes>, random: &mut Random) {
    let kind_4 = records.iter().filter(|record| record[0] == SELECTOR_LENGTH);
    let kind_4: Vec<Bytes> = kind_4.cloned().collect();
    if kind_4.is_empty() {
        return;
    }
    let header = &kind_4[random.below(kind_4.len())][1..3];
    let is_of_header =
        |record: &Bytes| [LAYOUT, SELECTOR_LENGTH].contains(&record[0]) && record[1..3] == *header;
    records.retain(|record| !is_of_header(record));
}
