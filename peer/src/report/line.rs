//! The lines of a report and their rows.

use super::number::{self, Number};
use crate::supplement::record::PLACES;

/// The kinds of row.
pub mod row_kind {
    pub const NUMBER: u8 = 1;
    pub const STATE: u8 = 2;
    pub const BITS: u8 = 3;
    pub const TEXT: u8 = 4;
    pub const DIGITS: u8 = 5;
    pub const INVALID: u8 = 6;
    pub const SHORT: u8 = 7;
    pub const UNKNOWN: u8 = 8;
    pub const LEFT: u8 = 9;
    pub const ANSWERED: u8 = 10;
    pub const VERDICT: u8 = 11;
}

/// The body's length by kind of row, from kind 1 on.
const BODIES: [usize; 11] = [number::BODY, 4, 4, 4, 4, 4, 0, 1, 1, 1, 1];

/// The length of a row of this kind, kind byte and body.
pub fn row_length(kind: u8) -> Option<usize> {
    match kind {
        row_kind::NUMBER..=row_kind::VERDICT => Some(length_of(kind)),
        _ => None,
    }
}

const fn length_of(kind: u8) -> usize {
    1 + BODIES[kind as usize - 1]
}

/// The longest report: sixteen Numbers, remainder, response and verdict.
pub const LONGEST: usize = PLACES * length_of(row_kind::NUMBER)
    + length_of(row_kind::LEFT)
    + length_of(row_kind::ANSWERED)
    + length_of(row_kind::VERDICT);

/// The Unknown numbers.
pub mod unknown {
    /// The PRN is in neither table.
    pub const NO_PRN: u8 = 1;
    pub const PLACE_LOST: u8 = 2;
    pub const NO_SLOT: u8 = 3;
    /// The form, or its width, is one that is not shown.
    pub const FORM: u8 = 4;
    /// A code outside the states of a SED.
    pub const STATE: u8 = 5;
    /// More than 32 bits.
    pub const WIDE: u8 = 6;
    /// A response of kind 3.
    pub const RESPONSE: u8 = 7;
    pub const NO_LAYOUT: u8 = 8;
}

pub mod verdict {
    pub const CLEAR: u8 = 1;
    pub const FLAGGED: u8 = 2;
    pub const UNKNOWN: u8 = 3;
}

#[derive(Clone, Copy, Debug, PartialEq)]
pub enum Line {
    Number(Number),
    State(u32),
    Bits(u32),
    Text(u32),
    Digits(u32),
    Invalid(u32),
    Short,
    Unknown(u8),
    /// Bits after the last item.
    Left(u8),
    /// The kind of response.
    Answered(u8),
}

/// Kind and body.
pub fn row(line: &Line) -> Vec<u8> {
    use row_kind::*;
    match *line {
        Line::Number(number) => with_body(NUMBER, &number.body()),
        Line::State(code) => with_body(STATE, &code.to_be_bytes()),
        Line::Bits(code) => with_body(BITS, &code.to_be_bytes()),
        Line::Text(code) => with_body(TEXT, &code.to_be_bytes()),
        Line::Digits(code) => with_body(DIGITS, &code.to_be_bytes()),
        Line::Invalid(raw) => with_body(INVALID, &raw.to_be_bytes()),
        Line::Short => vec![SHORT],
        Line::Unknown(number) => vec![UNKNOWN, number],
        Line::Left(bits) => vec![LEFT, bits],
        Line::Answered(kind) => vec![ANSWERED, kind],
    }
}

fn with_body(kind: u8, body: &[u8]) -> Vec<u8> {
    [&[kind], body].concat()
}

/// Flagged if a line is Invalid or Short or Left is not 0; otherwise Unknown
/// if a line is Unknown; otherwise Clear.
pub fn verdict_on(lines: &[Line]) -> u8 {
    let is_flagged = |line: &Line| match line {
        Line::Invalid(_) | Line::Short => true,
        Line::Left(bits) => *bits != 0,
        _ => false,
    };
    let is_unknown = |line: &Line| matches!(line, Line::Unknown(_));
    if lines.iter().any(is_flagged) {
        verdict::FLAGGED
    } else if lines.iter().any(is_unknown) {
        verdict::UNKNOWN
    } else {
        verdict::CLEAR
    }
}

#[cfg(test)]
mod tests {
    use super::*;

    #[test]
    fn rows() {
        let number = Line::Number(Number::of(101, 1));
        let body = [
            0x40, 0x59, 0x40, 0, 0, 0, 0, 0, 0, 0, 0, 0, 0, 0, 0, 0x65, 0, 1,
        ];
        let printed: [(Line, &[u8]); 10] = [
            (number, &[&[1], &body[..]].concat()),
            (Line::State(0x25), &[2, 0, 0, 0, 0x25]),
            (Line::Bits(0x8000_0001), &[3, 0x80, 0, 0, 1]),
            (Line::Text(0x4142), &[4, 0, 0, 0x41, 0x42]),
            (Line::Digits(0x123), &[5, 0, 0, 1, 0x23]),
            (Line::Invalid(0xF1), &[6, 0, 0, 0, 0xF1]),
            (Line::Short, &[7]),
            (Line::Unknown(5), &[8, 5]),
            (Line::Left(72), &[9, 72]),
            (Line::Answered(2), &[10, 2]),
        ];
        for (line, bytes) in printed {
            assert_eq!(row(&line), bytes);
            assert_eq!(row_length(bytes[0]), Some(bytes.len()));
        }
    }

    #[test]
    fn the_longest_report_has_310_bytes() {
        assert_eq!(LONGEST, 310);
    }

    #[test]
    fn verdicts() {
        let shown = [
            Line::Number(Number::of(7, 1)),
            Line::State(1),
            Line::Bits(2),
            Line::Text(3),
        ];
        let sound = [&shown[..], &[Line::Digits(4), Line::Left(0)]].concat();
        assert_eq!(verdict_on(&sound), verdict::CLEAR);
        let after = |line| verdict_on(&[&sound[..], &[line, Line::Answered(0)]].concat());
        assert_eq!(after(Line::Invalid(0)), verdict::FLAGGED);
        assert_eq!(after(Line::Short), verdict::FLAGGED);
        assert_eq!(after(Line::Left(1)), verdict::FLAGGED);
        for number in 1..=8 {
            assert_eq!(after(Line::Unknown(number)), verdict::UNKNOWN);
        }
        assert_eq!(
            verdict_on(&[Line::Unknown(3), Line::Left(8)]),
            verdict::FLAGGED
        );
        assert_eq!(verdict_on(&[Line::Left(0), Line::Answered(2)]), 1);
    }
}
