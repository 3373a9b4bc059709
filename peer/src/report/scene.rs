//! A frame or message and the records that tell of it, from which cases are
//! made.

use super::bits::put;
use super::{header_of, Sought};
use crate::case::Case;
use crate::frame::bus::{Bus, Runs};
use crate::frame::draft::Draft;
use crate::frame::header::{kind_of_run, response_kind};
use crate::frame::Parts;
use crate::random::Random;
use crate::sae::form::SNM;
use crate::sae::{all_ones, has_prn, has_slot, prn_row, Key, Prn, Slot};
use crate::supplement::draft::{
    layout_record, prn_record, selector_length_record, slot_record, Bytes,
};
use crate::supplement::layout::Layout;
use crate::supplement::record::PLACES;
use crate::supplement::selector_length::{SelectorLength, USUAL};

/// One item: its PRN, the PRN's row and a SLOT if they are known, and the
/// bits it has in the data.
#[derive(Clone, Copy, Debug)]
pub struct Sample {
    pub prn: u16,
    pub row: Option<Prn>,
    pub slot: Option<Slot>,
    pub raw: u64,
}

impl Sample {
    /// A PRN of the SAE tables.
    pub fn sae(prn: u16, raw: u64) -> Sample {
        let row = prn_row(prn).expect("a PRN of the SAE tables");
        Sample::own(row, None, raw)
    }

    /// A PRN with the row given, and the SLOT if there is one.
    pub fn own(row: Prn, slot: Option<Slot>, raw: u64) -> Sample {
        Sample {
            prn: row.prn,
            row: Some(row),
            slot,
            raw,
        }
    }

    /// A PRN of no table.
    pub fn missing(prn: u16) -> Sample {
        assert!(!has_prn(prn), "{prn:04X} is in no table");
        Sample {
            prn,
            row: None,
            slot: None,
            raw: 0,
        }
    }

    /// Zero fill of 1 to 7 bits.
    pub fn pad(width: usize) -> Sample {
        Sample::sae(0xF80F + width as u16, 0)
    }

    pub fn width(&self) -> usize {
        self.row.map_or(0, |row| usize::from(row.width))
    }
}

/// The first PRN and SLOT number of those that are in no SAE table.
pub const OWN_PRN: u16 = 0x2000;
pub const OWN_SLOT: u16 = 1000;

/// The PRN of a place, and a SLOT for it that takes every raw number.
pub fn own_rows(place: u16, form: u8, width: u8) -> (Prn, Slot) {
    let number = OWN_SLOT + place;
    let prn = Prn::new(OWN_PRN + place, form, width, number);
    (prn, whole_slot(form, width, number))
}

/// Unscaled, with every raw number of the width inside its limits.
pub fn whole_slot(form: u8, width: u8, number: u16) -> Slot {
    let (mut lowest, mut highest) = (0, all_ones(width));
    if form == SNM {
        highest >>= 1;
        lowest = !highest;
    }
    Slot::new((form, width, number), (1, 1, 0), (lowest, highest))
}

#[derive(Clone, Debug)]
pub struct Scene {
    pub bus: Bus,
    pub frame: Draft,
    pub layout: Layout,
    /// The kind 4 record of the frame's header, if it has one.
    pub selector_length: Option<SelectorLength>,
    pub prns: Vec<Prn>,
    pub slots: Vec<Slot>,
    /// Where the next item starts, in bits after the selector.
    pub end: usize,
}

impl Scene {
    /// The layout that the frame seeks where no kind 4 record tells of its header,
    /// as yet without PRNs; on J1850.
    pub fn of(frame: Draft) -> Scene {
        Scene::of_length(None, frame)
    }

    /// The same with this length in the header's kind 4 record, if it has one.
    pub fn of_length(recorded: Option<u8>, frame: Draft) -> Scene {
        let parts = parts_of(&frame);
        let layout = Layout::of_key(Sought::of_length(recorded, &parts).layout_key());
        let header = header_of(&parts);
        Scene {
            bus: Bus::J1850,
            frame,
            layout,
            selector_length: recorded.map(|length| SelectorLength { header, length }),
            prns: Vec::new(),
            slots: Vec::new(),
            end: 0,
        }
    }

    /// The same parts and records on this bus.
    pub fn on(mut self, bus: Bus) -> Scene {
        self.bus = bus;
        self
    }

    /// A frame with just enough data for the samples, and zero fill up to the
    /// byte's end.
    pub fn holding(first_byte: u8, samples: &[Sample], random: &mut Random) -> Scene {
        Scene::holding_behind(None, first_byte, samples, random)
    }

    /// The same with this length in the header's kind 4 record, if it has one.
    pub fn holding_behind(
        recorded: Option<u8>,
        first_byte: u8,
        samples: &[Sample],
        random: &mut Random,
    ) -> Scene {
        let bits: usize = samples.iter().map(Sample::width).sum();
        let data = usize::from(recorded.unwrap_or(USUAL)) + bits.div_ceil(8);
        let mut scene = Scene::of_length(recorded, frame(first_byte, data, random));
        for sample in samples {
            scene.add(sample);
        }
        if !bits.is_multiple_of(8) && samples.len() < PLACES {
            scene.add(&Sample::pad(8 - bits % 8));
        }
        scene
    }

    /// How many bits the frame has after its selector.
    pub fn bits(&self) -> usize {
        8 * (self.frame.data.len() - self.selector_bytes())
    }

    /// How many bytes of the data are the selector.
    pub fn selector_bytes(&self) -> usize {
        usize::from(self.layout.selector_length)
    }

    /// The next item; its bits are put in their place if the data hold them.
    pub fn add(&mut self, sample: &Sample) {
        let mut prns = self.layout.used().to_vec();
        prns.push(sample.prn);
        self.layout = self.layout.with_prns(&prns);
        let (start, width) = (self.end, sample.width());
        if width > 0 && start + width <= self.bits() {
            let behind = self.selector_bytes();
            put(&mut self.frame.data[behind..], start, width, sample.raw);
        }
        self.end += width;
        let is_new = |prn: &Prn| !has_prn(prn.prn) && !self.prns.contains(prn);
        self.prns.extend(sample.row.filter(is_new));
        let is_new = |slot: &Slot| !has_slot(slot.key()) && !self.has_slot(slot.key());
        let slot = sample.slot.filter(is_new);
        self.slots.extend(slot);
    }

    fn has_slot(&self, key: Key) -> bool {
        self.slots.iter().any(|slot| slot.key() == key)
    }

    /// The layout first and the header's kind 4 record, then PRNs and SLOTs.
    pub fn records(&self) -> Vec<Bytes> {
        let mut list = self.seeking_records();
        list.extend(self.prns.iter().map(prn_record));
        list.extend(self.slots.iter().map(slot_record));
        list
    }

    /// The layout and the header's kind 4 record.
    pub fn seeking_records(&self) -> Vec<Bytes> {
        let mut list = vec![layout_record(&self.layout)];
        list.extend(self.selector_length.iter().map(selector_length_record));
        list
    }

    pub fn runs(&self) -> Runs {
        self.frame.runs_on(self.bus)
    }

    pub fn case(&self) -> Case {
        self.case_under(self.records().concat())
    }

    /// The case of its runs under another supplement.
    pub fn case_under(&self, supplement: Vec<u8>) -> Case {
        Case::report_on(self.bus, supplement, self.runs())
    }
}

/// The draft as a reader would hand it on.
pub fn parts_of(frame: &Draft) -> Parts<'_> {
    Parts {
        header: &frame.header,
        data: &frame.data,
        kind: kind_of_run(&frame.header).unwrap_or(0),
        response: &frame.response,
    }
}

/// This many data bytes and the shortest response of the kind.
pub fn frame(first_byte: u8, data: usize, random: &mut Random) -> Draft {
    let response = usize::from(response_kind(first_byte) != Some(0));
    Draft::of_lengths(first_byte, data, response, random)
}

/// An unsigned number of this width that takes every raw number.
#[cfg(test)]
pub fn plain(place: u16, width: u8, raw: u64) -> Sample {
    let (prn, slot) = own_rows(place, crate::sae::form::UNM, width);
    Sample::own(prn, Some(slot), raw)
}
