//! A layout's fields.

use super::record::PLACES;
use super::selector_length::{Header, MOST};

/// First byte, target, the selector's length and its two bytes.
pub type LayoutKey = [u8; 5];

#[derive(Clone, Copy, Debug, PartialEq)]
pub struct Layout {
    pub first_byte: u8,
    pub target: u8,
    pub selector_length: u8,
    pub selector: [u8; MOST],
    pub count: u8,
    pub prns: [u16; PLACES],
}

impl Layout {
    /// A layout of this key without PRNs.
    pub const fn of_key(key: LayoutKey) -> Layout {
        let [first_byte, target, selector_length, selector @ ..] = key;
        Layout {
            first_byte,
            target,
            selector_length,
            selector,
            count: 0,
            prns: [0; PLACES],
        }
    }

    pub fn key(&self) -> LayoutKey {
        let [first_byte, target] = self.header();
        let [first, second] = self.selector;
        [first_byte, target, self.selector_length, first, second]
    }

    pub fn header(&self) -> Header {
        [self.first_byte, self.target]
    }

    /// The PRNs that the count says.
    pub fn used(&self) -> &[u16] {
        &self.prns[..usize::from(self.count)]
    }

    /// The layout with these PRNs, and their count.
    pub fn with_prns(mut self, prns: &[u16]) -> Layout {
        self.count = prns.len() as u8;
        self.prns = [0; PLACES];
        self.prns[..prns.len()].copy_from_slice(prns);
        self
    }
}
