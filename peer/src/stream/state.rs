//! The state that a reader hands from call to call, as values and as bytes.

use super::record;

/// The bytes of a state.
pub const LENGTH: usize = 24;
/// How many bytes of a record a state holds at most.
pub const MOST_HELD: usize = 14;

/// Where its parts stand; the place is before them all, most significant byte
/// first.
pub const STOPPED: usize = 8;
pub const COUNT: usize = 9;
pub const HELD: usize = 10;

#[derive(Clone, Debug, Default, PartialEq)]
pub struct State {
    /// Of the record begun, or of the next.
    pub place: u64,
    /// After refusal 60.
    pub stopped: bool,
    /// The bytes of the record begun.
    pub held: Vec<u8>,
}

impl State {
    /// Nothing is held yet.
    pub fn at(place: u64) -> State {
        State {
            place,
            ..State::default()
        }
    }

    /// Any bytes of this length are a state. Bytes held that begin no record, or
    /// hold one whole, count as none.
    pub fn of(bytes: &[u8]) -> State {
        assert_eq!(bytes.len(), LENGTH, "the bytes of a state");
        let (place, _) = bytes.split_first_chunk().expect("eight bytes of a place");
        let count = usize::from(bytes[COUNT]).min(MOST_HELD);
        let held = &bytes[HELD..HELD + count];
        State {
            place: u64::from_be_bytes(*place),
            stopped: bytes[STOPPED] != 0,
            held: match record::is_begun(held) {
                true => held.to_vec(),
                false => Vec::new(),
            },
        }
    }

    /// As a call writes it, with zeros behind the bytes held.
    pub fn bytes(&self) -> Vec<u8> {
        let mut bytes = self.place.to_be_bytes().to_vec();
        bytes.extend([u8::from(self.stopped), self.held.len() as u8]);
        bytes.extend(&self.held);
        bytes.resize(LENGTH, 0);
        bytes
    }
}
