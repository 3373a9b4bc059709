//! One record of a supplement: its size, its key, its fields and their ranges.

use super::layout::Layout;
use super::selector_length::{Header, SelectorLength, MOST};
use crate::sae::form::SNM;
use crate::sae::{has_prn, has_slot, Prn, Slot};

pub const SLOT: u8 = 1;
pub const PRN: u8 = 2;
pub const LAYOUT: u8 = 3;
pub const SELECTOR_LENGTH: u8 = 4;

pub const KINDS: [u8; 4] = [SLOT, PRN, LAYOUT, SELECTOR_LENGTH];

/// Kind byte, bytes of the body after it, and bytes of the key at its start.
const SIZES: [(u8, usize, usize); 4] = [
    (SLOT, 20, 4),
    (PRN, 6, 2),
    (LAYOUT, 38, 5),
    (SELECTOR_LENGTH, 3, 2),
];

/// How many PRNs a layout has room for.
pub const PLACES: usize = 16;

/// Kind byte and body together; none for an unknown kind byte.
pub fn length(kind: u8) -> Option<usize> {
    let size = SIZES.iter().find(|size| size.0 == kind);
    size.map(|(_, body, _)| 1 + body)
}

/// The same for a kind that is known.
pub fn length_of(kind: u8) -> usize {
    length(kind).expect("a known kind")
}

/// Kind byte and key of a whole record.
pub fn key_of(record: &[u8]) -> &[u8] {
    let size = SIZES.iter().find(|size| size.0 == record[0]);
    let (_, _, key) = size.expect("a known kind");
    &record[..1 + key]
}

#[derive(Clone, Copy, Debug, PartialEq)]
pub enum Record {
    Slot(Slot),
    Prn(Prn),
    Layout(Layout),
    SelectorLength(SelectorLength),
}

impl Record {
    /// The fields of a whole record.
    pub fn of(bytes: &[u8]) -> Record {
        let body = &bytes[1..];
        match bytes[0] {
            SLOT => Record::Slot(slot_of(body)),
            PRN => Record::Prn(prn_of(body)),
            LAYOUT => Record::Layout(layout_of(body)),
            SELECTOR_LENGTH => Record::SelectorLength(selector_length_of(body)),
            byte => panic!("a whole record has no kind byte {byte}"),
        }
    }

    pub fn is_in_range(&self) -> bool {
        match self {
            Record::Slot(slot) => is_slot_in_range(slot),
            Record::Prn(prn) => is_form(prn.form) && is_width(prn.width),
            Record::Layout(layout) => is_layout_in_range(layout),
            Record::SelectorLength(record) => is_selector_length_in_range(record),
        }
    }

    /// Its key is in the SAE tables, which tell of no header.
    pub fn is_in_sae(&self) -> bool {
        match self {
            Record::Slot(slot) => has_slot(slot.key()),
            Record::Prn(prn) => has_prn(prn.prn),
            Record::Layout(_) | Record::SelectorLength(_) => false,
        }
    }
}

fn is_form(byte: u8) -> bool {
    (1..=9).contains(&byte)
}

fn is_width(byte: u8) -> bool {
    (1..=64).contains(&byte)
}

/// The limits of an SNM are signed.
fn is_slot_in_range(slot: &Slot) -> bool {
    let are_limits_in_order = if slot.form == SNM {
        slot.lowest as i32 <= slot.highest as i32
    } else {
        slot.lowest <= slot.highest
    };
    is_form(slot.form) && is_width(slot.width) && slot.divisor >= 1 && are_limits_in_order
}

fn is_layout_in_range(layout: &Layout) -> bool {
    is_header_in_range(layout.header())
        && is_unused_zero(&layout.selector, layout.selector_length)
        && is_unused_zero(&layout.prns, layout.count)
}

fn is_selector_length_in_range(record: &SelectorLength) -> bool {
    is_header_in_range(record.header) && usize::from(record.length) <= MOST
}

/// With H = 0 no priority, with H = 1 no target.
fn is_header_in_range([first_byte, target]: Header) -> bool {
    match first_byte & 0x10 {
        0 => first_byte >> 5 == 0,
        _ => target == 0,
    }
}

/// There are as many places as are used, and those beyond are zero.
fn is_unused_zero<T: Default + PartialEq>(places: &[T], used: u8) -> bool {
    let unused = places.get(usize::from(used)..);
    unused.is_some_and(|places| places.iter().all(|place| *place == T::default()))
}

fn slot_of(body: &[u8]) -> Slot {
    Slot {
        form: body[0],
        width: body[1],
        number: number_16(body, 2),
        multiplier: number_16(body, 4),
        divisor: number_16(body, 6),
        offset: number_32(body, 8) as i32,
        lowest: number_32(body, 12),
        highest: number_32(body, 16),
    }
}

fn prn_of(body: &[u8]) -> Prn {
    Prn::new(number_16(body, 0), body[2], body[3], number_16(body, 4))
}

fn layout_of(body: &[u8]) -> Layout {
    let mut layout = Layout::of_key([body[0], body[1], body[2], body[3], body[4]]);
    layout.count = body[5];
    for place in 0..PLACES {
        layout.prns[place] = number_16(body, 6 + 2 * place);
    }
    layout
}

fn selector_length_of(body: &[u8]) -> SelectorLength {
    SelectorLength {
        header: [body[0], body[1]],
        length: body[2],
    }
}

/// The most significant byte comes first.
fn number_16(body: &[u8], at: usize) -> u16 {
    u16::from_be_bytes([body[at], body[at + 1]])
}

fn number_32(body: &[u8], at: usize) -> u32 {
    u32::from(number_16(body, at)) << 16 | u32::from(number_16(body, at + 2))
}
