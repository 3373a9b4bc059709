//! Item lines.

use super::bits::signed;
use super::line::{unknown, Line};
use super::number::Number;
use crate::sae::form::*;
use crate::sae::{Prn, Slot};

/// Where an item starts.
#[derive(Clone, Copy, Debug, PartialEq)]
pub enum Place {
    /// This many bits after the selector.
    At(usize),
    /// A PRN before it has no known width.
    Lost,
    /// A line before it is Short.
    Past,
}

/// What the rules are told of an item.
#[derive(Clone, Copy, Debug, PartialEq)]
pub struct Item {
    pub place: Place,
    /// The row of its PRN in one of the tables, and that of the SLOT.
    pub prn: Option<Prn>,
    pub slot: Option<Slot>,
    /// Bits of data after the selector.
    pub bits: usize,
    /// Its own bits with zeros before, if it lies in the data and has no more
    /// than 32.
    pub raw: u32,
}

impl Item {
    /// The place just after it, if it has a place and a width.
    pub fn end(&self) -> Option<usize> {
        match (self.place, self.prn) {
            (Place::At(start), Some(prn)) => Some(start + usize::from(prn.width)),
            _ => None,
        }
    }

    pub fn width(&self) -> u8 {
        self.prn.map_or(0, |prn| prn.width)
    }
}

/// The most bits that are shown.
pub const WIDEST: u8 = 32;

/// The first rule that applies gives the line.
pub fn line(item: &Item) -> Line {
    match item.place {
        Place::Lost => return Line::Unknown(unknown::PLACE_LOST),
        Place::Past => return Line::Short,
        Place::At(_) => {}
    }
    let Some(prn) = item.prn else {
        return Line::Unknown(unknown::NO_PRN);
    };
    if item.end().is_some_and(|end| end > item.bits) {
        return Line::Short;
    }
    let Some(slot) = item.slot else {
        return Line::Unknown(unknown::NO_SLOT);
    };
    if [BMM, SFP, PKT].contains(&prn.form) {
        return Line::Unknown(unknown::FORM);
    }
    if prn.width > WIDEST {
        return Line::Unknown(unknown::WIDE);
    }
    line_of_form(&slot, item.raw)
}

/// The SLOT has the form and the width of the PRN.
fn line_of_form(slot: &Slot, raw: u32) -> Line {
    let is_text = |byte: u32| (0x20..=0x7E).contains(&byte);
    match slot.form {
        UNM | SNM if is_outside(slot, raw) => Line::Invalid(raw),
        UNM | SNM => Line::Number(value(slot, raw)),
        SED if is_outside(slot, raw) => Line::Unknown(unknown::STATE),
        SED => Line::State(raw),
        BMP => Line::Bits(raw),
        ASC if !slot.width.is_multiple_of(8) => Line::Unknown(unknown::FORM),
        ASC if !pieces(slot, raw, 8).all(is_text) => Line::Invalid(raw),
        ASC => Line::Text(raw),
        BCD if !slot.width.is_multiple_of(4) => Line::Unknown(unknown::FORM),
        BCD if pieces(slot, raw, 4).any(|digit| digit > 9) => Line::Invalid(raw),
        BCD => Line::Digits(raw),
        form => panic!("form {form} is not shown"),
    }
}

/// The raw number that a SLOT means by these bits.
pub fn raw_number(slot: &Slot, raw: u32) -> i64 {
    if slot.form == SNM {
        signed(raw, slot.width)
    } else {
        i64::from(raw)
    }
}

/// Both limits in the sense of the SLOT's form.
pub fn limits(slot: &Slot) -> (i64, i64) {
    if slot.form == SNM {
        (
            i64::from(slot.lowest as i32),
            i64::from(slot.highest as i32),
        )
    } else {
        (i64::from(slot.lowest), i64::from(slot.highest))
    }
}

fn is_outside(slot: &Slot, raw: u32) -> bool {
    let (lowest, highest) = limits(slot);
    !(lowest..=highest).contains(&raw_number(slot, raw))
}

/// The whole number above the line over the divisor.
fn value(slot: &Slot, raw: u32) -> Number {
    let product = raw_number(slot, raw) * i64::from(slot.multiplier);
    Number::of(product + i64::from(slot.offset), slot.divisor)
}

/// The bits in pieces of `size`, the last first.
fn pieces(slot: &Slot, raw: u32, size: u32) -> impl Iterator<Item = u32> {
    let count = u32::from(slot.width) / size;
    (0..count).map(move |place| raw >> (place * size) & ((1 << size) - 1))
}

/// Where the item after this one starts, once its line is known.
pub fn place_after(item: &Item, line: &Line) -> Place {
    match line {
        Line::Short => Place::Past,
        _ => item.end().map_or(Place::Lost, Place::At),
    }
}

#[cfg(test)]
#[path = "item_tests.rs"]
mod tests;
