//! Rows taken apart again, by their kinds and lengths; of the bodies a Number's
//! alone has to agree with itself.

use super::line::{row_kind, row_length, verdict};
use super::number::Number;
use crate::supplement::record::PLACES;

/// A report's rows by name; each is its kind and body.
#[derive(Clone, Debug, PartialEq)]
pub struct Rows<'a> {
    pub items: Vec<&'a [u8]>,
    pub remainder: &'a [u8],
    pub response: &'a [u8],
    pub verdict: u8,
}

/// None where the bytes are no rows of a report.
pub fn parse(bytes: &[u8]) -> Option<Rows<'_>> {
    let rows = split(bytes)?;
    let (items, [remainder, response, last]) = rows.split_last_chunk()?;
    let is_among = |row: &[u8], kinds: &[u8]| kinds.contains(&row[0]);
    let unknown = row_kind::UNKNOWN;
    let is_sound = items.len() <= PLACES
        && items.iter().all(|row| is_item(row))
        && is_among(remainder, &[row_kind::SHORT, unknown, row_kind::LEFT])
        && is_among(response, &[unknown, row_kind::ANSWERED])
        && is_among(last, &[row_kind::VERDICT])
        && (verdict::CLEAR..=verdict::UNKNOWN).contains(&last[1]);
    is_sound.then(|| Rows {
        items: items.to_vec(),
        remainder,
        response,
        verdict: last[1],
    })
}

/// Kind and body of each row, if the bytes end with one.
fn split(bytes: &[u8]) -> Option<Vec<&[u8]>> {
    let mut rows = Vec::new();
    let mut rest = bytes;
    while let Some(kind) = rest.first() {
        let (row, after) = rest.split_at_checked(row_length(*kind)?)?;
        rows.push(row);
        rest = after;
    }
    Some(rows)
}

fn is_item(row: &[u8]) -> bool {
    match row[0] {
        row_kind::NUMBER => number(row).is_some(),
        kind => (row_kind::STATE..=row_kind::UNKNOWN).contains(&kind),
    }
}

impl<'a> Rows<'a> {
    /// Every line, the remainder and the response last.
    pub fn lines(&self) -> Vec<&'a [u8]> {
        [&self.items[..], &[self.remainder, self.response]].concat()
    }
}

/// The Number of a row, if it is one.
pub fn number(row: &[u8]) -> Option<Number> {
    match row {
        [row_kind::NUMBER, body @ ..] => Number::of_body(body),
        _ => None,
    }
}

/// The Unknown number of a row, if it is one.
pub fn unknown_number(row: &[u8]) -> Option<u8> {
    match row {
        [row_kind::UNKNOWN, number] => Some(*number),
        _ => None,
    }
}

pub fn is_unknown(row: &[u8]) -> bool {
    unknown_number(row).is_some()
}

pub fn is_short(row: &[u8]) -> bool {
    row == [row_kind::SHORT]
}

/// The bits of a Left row.
pub fn left(row: &[u8]) -> Option<usize> {
    match row {
        [row_kind::LEFT, bits] => Some(usize::from(*bits)),
        _ => None,
    }
}

#[cfg(test)]
mod tests {
    use super::*;

    /// 101/1 and 0/128.
    fn whole_report() -> Vec<u8> {
        let mut bytes = vec![1, 0x40, 0x59, 0x40, 0, 0, 0, 0, 0];
        bytes.extend([0, 0, 0, 0, 0, 0, 0, 0x65, 0, 1, 1]);
        bytes.extend([0; 16]);
        bytes.extend([0, 0x80, 9, 0, 10, 0, 11, 1]);
        bytes
    }

    #[test]
    fn the_whole_report() {
        let bytes = whole_report();
        let rows = parse(&bytes).unwrap();
        assert_eq!(rows.items, [&bytes[..19], &bytes[19..38]]);
        let numbers: Vec<Option<Number>> = rows.items.iter().map(|row| number(row)).collect();
        assert_eq!(
            numbers,
            [(101, 1), (0, 128)].map(|(above, divisor)| Some(Number::of(above, divisor)))
        );
        assert_eq!(number(rows.remainder), None);
        assert_eq!((rows.remainder, rows.response), (&[9, 0][..], &[10, 0][..]));
        assert_eq!(rows.verdict, 1);
        assert_eq!(rows.lines().len(), 4);
        for length in 0..bytes.len() {
            assert_eq!(parse(&bytes[..length]), None);
        }
    }

    #[test]
    fn a_double_of_another_fraction() {
        for (place, byte) in [(1, 0xC0), (16, 0x66), (18, 2), (27, 1), (37, 0)] {
            let mut other = whole_report();
            other[place] = byte;
            assert_eq!(parse(&other), None, "{place} {byte}");
        }
    }

    #[test]
    fn what_is_no_report() {
        let sound = [7, 7, 10, 0, 11, 2];
        assert!(parse(&sound).is_some());
        assert!(parse(&sound[1..]).is_some());
        for (place, byte) in [(0, 0), (0, 12), (1, 10), (2, 7), (4, 7), (5, 0), (5, 4)] {
            let mut other = sound;
            other[place] = byte;
            assert_eq!(parse(&other), None, "{place} {byte}");
        }
        assert_eq!(parse(&[9, 0, 9, 0, 10, 0, 11, 1]), None);
        let many = |count: usize| [vec![7; count], sound[1..].to_vec()].concat();
        assert!(parse(&many(16)).is_some() && parse(&many(17)).is_none());
    }
}
