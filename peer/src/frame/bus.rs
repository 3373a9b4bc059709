//! The two buses, for what is done alike on both.

use super::{check_byte, iso, reader, Parts};

#[derive(Clone, Copy, Debug, PartialEq)]
pub enum Bus {
    J1850,
    Iso9141,
}

/// The run before EOD and the response; a message of ISO 9141-2 and nothing.
pub type Runs = (Vec<u8>, Vec<u8>);

impl Bus {
    pub const BOTH: [Bus; 2] = [Bus::J1850, Bus::Iso9141];

    /// What its reader hands on, or its refusal. On ISO 9141-2 there is no
    /// second run.
    pub fn read<'a>(self, first: &'a [u8], response: &'a [u8]) -> Result<Parts<'a>, u8> {
        match self {
            Bus::J1850 => reader::read(first, response),
            Bus::Iso9141 => {
                assert!(response.is_empty(), "ISO 9141-2 has no response");
                iso::read(first)
            }
        }
    }

    /// `bytes` with the check byte of the bus.
    pub fn checked(self, bytes: &[u8]) -> Vec<u8> {
        match self {
            Bus::J1850 => check_byte::checked(bytes),
            Bus::Iso9141 => iso::summed(bytes),
        }
    }
}
