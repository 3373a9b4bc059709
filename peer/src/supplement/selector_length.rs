//! A kind 4 record's fields: how long the selector of a header is.

/// First byte and target as the records have them: no priority with H = 0, no
/// target with H = 1.
pub type Header = [u8; 2];

/// A selector has at most this many bytes.
pub const MOST: usize = 2;

/// The selector length of a header without a record.
pub const USUAL: u8 = 1;

#[derive(Clone, Copy, Debug, PartialEq)]
pub struct SelectorLength {
    pub header: Header,
    pub length: u8,
}
