//! Memory lent to a call: the middle of a larger buffer, with guard bytes on
//! both sides.

use super::Run;
use crate::random::Random;
use std::ptr;

const GUARD: usize = 16;

#[derive(Clone, Debug)]
pub struct Lent {
    buffer: Vec<u8>,
    start: usize,
    length: usize,
    null: bool,
}

impl Lent {
    /// A run that holds `content`. One empty run in two is a NULL pointer.
    pub fn holding(content: &[u8], random: &mut Random) -> Lent {
        let mut lent = Lent::filled(content.len(), random);
        lent.put(content);
        lent
    }

    /// A run of `length` bytes that hold a pattern, as the guard bytes do.
    pub fn filled(length: usize, random: &mut Random) -> Lent {
        let start = GUARD + random.below(8);
        let first = random.byte();
        let step = random.byte() | 1;
        let place = |at: usize| first.wrapping_add(step.wrapping_mul(at as u8));
        Lent {
            buffer: (0..start + length + GUARD).map(place).collect(),
            start,
            length,
            null: length == 0 && random.once_in(2),
        }
    }

    /// Puts `content` at the start of the run.
    pub fn put(&mut self, content: &[u8]) {
        let end = self.start + content.len();
        self.buffer[self.start..end].copy_from_slice(content);
    }

    pub fn run(&mut self) -> Run {
        if self.null {
            (ptr::null_mut(), 0)
        } else {
            (self.buffer[self.start..].as_mut_ptr(), self.length)
        }
    }

    pub fn is_null(&self) -> bool {
        self.null
    }

    /// The run alone.
    pub fn held(&self) -> &[u8] {
        &self.buffer[self.start..self.start + self.length]
    }

    /// The whole buffer, guard bytes too.
    pub fn whole(&self) -> &[u8] {
        &self.buffer
    }
}
