//! The records of an accepted supplement by their fields.

use super::layout::{Layout, LayoutKey};
use super::record::{length_of, Record};
use super::selector_length::{Header, SelectorLength};
use crate::sae::{Key, Prn, Slot};

#[derive(Clone, Debug, Default, PartialEq)]
pub struct Records {
    pub slots: Vec<Slot>,
    pub prns: Vec<Prn>,
    pub layouts: Vec<Layout>,
    pub selector_lengths: Vec<SelectorLength>,
}

impl Records {
    pub fn of(supplement: &[u8]) -> Records {
        let mut records = Records::default();
        let mut rest = supplement;
        while let Some(kind) = rest.first() {
            let (bytes, after) = rest.split_at(length_of(*kind));
            match Record::of(bytes) {
                Record::Slot(slot) => records.slots.push(slot),
                Record::Prn(prn) => records.prns.push(prn),
                Record::Layout(layout) => records.layouts.push(layout),
                Record::SelectorLength(record) => records.selector_lengths.push(record),
            }
            rest = after;
        }
        records
    }

    pub fn slot(&self, key: Key) -> Option<Slot> {
        self.slots.iter().find(|slot| slot.key() == key).copied()
    }

    pub fn prn(&self, prn: u16) -> Option<Prn> {
        self.prns.iter().find(|row| row.prn == prn).copied()
    }

    pub fn layout(&self, key: LayoutKey) -> Option<Layout> {
        let found = self.layouts.iter().find(|layout| layout.key() == key);
        found.copied()
    }

    /// Any layout for this header, whatever its selector.
    pub fn has_layout_for(&self, header: Header) -> bool {
        self.layouts.iter().any(|layout| layout.header() == header)
    }

    /// What the header's kind 4 record says, if there is one.
    pub fn selector_length(&self, header: Header) -> Option<u8> {
        let mut records = self.selector_lengths.iter();
        let found = records.find(|record| record.header == header);
        found.map(|record| record.length)
    }
}

#[cfg(test)]
mod tests {
    use super::*;
    use crate::random::Random;
    use crate::supplement::draft::{
        layout_record, prn_record, random_layout, random_prn, random_selector_length, random_slot,
        selector_length_record, slot_record,
    };

    #[test]
    fn fields_come_back_and_are_found_by_their_keys() {
        let mut random = Random::new(31);
        for _ in 0..500 {
            let slot = random_slot(&mut random);
            let prn = random_prn(&mut random);
            let layout = random_layout(&mut random);
            let length = random_selector_length(&mut random);
            let supplement = [
                layout_record(&layout),
                slot_record(&slot),
                selector_length_record(&length),
                prn_record(&prn),
            ];
            let records = Records::of(&supplement.concat());
            assert_eq!(records.slots, [slot]);
            assert_eq!(records.prns, [prn]);
            assert_eq!(records.layouts, [layout]);
            assert_eq!(records.selector_lengths, [length]);
            assert_eq!(records.slot(slot.key()), Some(slot));
            assert_eq!(records.prn(prn.prn), Some(prn));
            assert_eq!(records.layout(layout.key()), Some(layout));
            assert!(records.has_layout_for(layout.header()));
            assert_eq!(records.selector_length(length.header), Some(length.length));
            let [first_byte, target] = length.header;
            assert_eq!(records.selector_length([first_byte, target ^ 1]), None);
            assert_eq!(records.prn(prn.prn ^ 1), None);
            let other = (slot.form, slot.width ^ 1, slot.number);
            assert_eq!(records.slot(other), None);
        }
        assert_eq!(Records::of(&[]), Records::default());
    }
}
