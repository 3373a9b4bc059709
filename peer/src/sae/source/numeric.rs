//! Tables 22 to 28: zero fill, UNM and SNM.

use super::linear::{Linear, Ratio};
use super::table::{cells, slot_reference};
use crate::sae::form::{self, SNM, UNM};
use crate::sae::{all_ones, Key, Slot};

/// Each SLOT printed by its name; none where it does not fit the fields.
pub fn slots(text: &str) -> Vec<(String, Option<Slot>)> {
    let mut list = Vec::new();
    let mut heading: Option<(u8, Option<u8>)> = None;
    for line in text.lines() {
        if line.contains("TABLE ") {
            heading = form_and_width(line);
        }
        let cells = cells(line);
        let name = cells.first().copied().unwrap_or_default();
        match (cells.len(), heading) {
            (3, _) if slot_reference(name).is_some_and(|key| key.0 == UNM && key.2 == 0) => {
                list.push((name.to_string(), slot_reference(name).map(zero_fill)));
            }
            (8, Some(heading)) if name.starts_with(|first: char| first.is_ascii_digit()) => {
                let key = key(heading, name);
                list.push((format!("{key:?}"), key.and_then(|key| scaled(key, &cells))));
            }
            _ => {}
        }
    }
    list
}

/// The form of a table's SLOTs and their width, if all have one.
fn form_and_width(line: &str) -> Option<(u8, Option<u8>)> {
    let (_, title) = line.split_once('—')?;
    let (letters, rest) = title.split_once('-')?;
    let width = rest.get(..2)?.parse().ok();
    Some((form::of_letters(letters)?, width))
}

fn key(heading: (u8, Option<u8>), name: &str) -> Option<Key> {
    let (width, number) = match heading.1 {
        Some(width) => (width, name),
        None => {
            let (width, number) = name.split_once('-')?;
            (width.parse().ok()?, number)
        }
    };
    Some((heading.0, width, number.parse().ok()?))
}

fn zero_fill(key: Key) -> Slot {
    Slot::new(key, (0, 1, 0), (0, 0))
}

/// Cells: number, resolution, minimum, maximum, invalid range, N, E, comment.
fn scaled(key: Key, cells: &[&str]) -> Option<Slot> {
    let value = Linear::of_text(cells[6])?;
    let (multiplier, divisor) = multiplier_and_divisor(cells[1], value.slope)?;
    let offset = value.base * Ratio::whole(divisor);
    let raw = raw_limits(key, &cells[2..5], value)?;
    if offset.below != 1 || divisor < 1 {
        return None;
    }
    let scale = (
        multiplier.try_into().ok()?,
        divisor.try_into().ok()?,
        offset.above.try_into().ok()?,
    );
    Some(Slot::new(key, scale, (raw.0 as u32, raw.1 as u32)))
}

/// The resolution's own fraction where E agrees with it, else E's in lowest
/// terms.
fn multiplier_and_divisor(resolution: &str, slope: Ratio) -> Option<(i128, i128)> {
    let (above, below) = resolution.split_once('/').unwrap_or((resolution, "1"));
    let (above, below) = (Ratio::of_decimal(above)?, Ratio::of_decimal(below)?);
    if above / below == slope {
        Some((above.above, below.above))
    } else {
        Some((slope.above, slope.below))
    }
}

/// The valid raw numbers, if they are one unbroken range.
fn raw_limits(key: Key, limits: &[&str], value: Linear) -> Option<(i128, i128)> {
    let ones = i128::from(all_ones(key.1));
    let (lowest, highest) = if key.0 == SNM {
        (-(ones + 1) / 2, ones / 2)
    } else {
        (0, ones)
    };
    if limits[2] == "—" {
        return Some((lowest, highest));
    }
    if key.1 > 16 {
        return None;
    }
    let invalid = codes(limits[2]);
    let (least, most) = (printed(limits[0])?, printed(limits[1])?);
    let is_valid = |raw: &i128| match invalid {
        Some((from, to)) => !(from..=to).contains(&(*raw & ones)),
        None => least.is_at_most(value.at(*raw)) && value.at(*raw).is_at_most(most),
    };
    let valid: Vec<i128> = (lowest..=highest).filter(is_valid).collect();
    let (first, last) = (*valid.first()?, *valid.last()?);
    (last - first + 1 == valid.len() as i128).then_some((first, last))
}

/// The codes in a cell like 90.75 (F1h-FFh).
fn codes(cell: &str) -> Option<(i128, i128)> {
    let (_, inner) = cell.split_once('(')?;
    let (from, to) = inner.strip_suffix(')')?.split_once('-')?;
    let code = |text: &str| i128::from_str_radix(text.strip_suffix('h')?, 16).ok();
    Some((code(from)?, code(to)?))
}

/// The number in a cell like -90 (00h).
fn printed(cell: &str) -> Option<Ratio> {
    Ratio::of_decimal(cell.split(' ').next()?)
}
