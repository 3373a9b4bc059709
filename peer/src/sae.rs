//! The SAE tables: the PRNs and SLOTs that J2178-2 prints.

pub mod form;
mod prns;
mod slots;
#[cfg(test)]
mod source;

pub use prns::PRNS;
pub use slots::SLOTS;

/// Form, width and number of a SLOT.
pub type Key = (u8, u8, u16);

/// Where a PRN's item is described: the SLOT of this form, width and number.
#[derive(Clone, Copy, Debug, PartialEq)]
pub struct Prn {
    pub prn: u16,
    pub form: u8,
    pub width: u8,
    pub number: u16,
}

impl Prn {
    /// The key of the SLOT.
    pub fn slot_key(&self) -> Key {
        (self.form, self.width, self.number)
    }

    pub const fn new(prn: u16, form: u8, width: u8, number: u16) -> Prn {
        Prn {
            prn,
            form,
            width,
            number,
        }
    }
}

/// A value is (N x multiplier + offset) / divisor. The limits are patterns of
/// 32 bits; for SNM they are in two's complement.
#[derive(Clone, Copy, Debug, PartialEq)]
pub struct Slot {
    pub form: u8,
    pub width: u8,
    pub number: u16,
    pub multiplier: u16,
    pub divisor: u16,
    pub offset: i32,
    pub lowest: u32,
    pub highest: u32,
}

impl Slot {
    /// The scale is multiplier, divisor and offset.
    pub const fn new(key: Key, scale: (u16, u16, i32), limits: (u32, u32)) -> Slot {
        Slot {
            form: key.0,
            width: key.1,
            number: key.2,
            multiplier: scale.0,
            divisor: scale.1,
            offset: scale.2,
            lowest: limits.0,
            highest: limits.1,
        }
    }

    pub fn key(&self) -> Key {
        (self.form, self.width, self.number)
    }
}

/// The row of this PRN.
pub fn prn_row(prn: u16) -> Option<Prn> {
    let place = PRNS.binary_search_by_key(&prn, |row| row.prn);
    place.ok().map(|place| PRNS[place])
}

/// The row of this form, width and number.
pub fn slot_row(key: Key) -> Option<Slot> {
    let place = SLOTS.binary_search_by_key(&key, Slot::key);
    place.ok().map(|place| SLOTS[place])
}

pub fn has_prn(prn: u16) -> bool {
    prn_row(prn).is_some()
}

pub fn has_slot(key: Key) -> bool {
    slot_row(key).is_some()
}

/// The largest raw number of `width` bits, at most FFFFFFFFh.
pub const fn all_ones(width: u8) -> u32 {
    if width >= 32 {
        u32::MAX
    } else {
        (1 << width) - 1
    }
}

#[cfg(test)]
#[path = "sae/sae_tests.rs"]
mod tests;
