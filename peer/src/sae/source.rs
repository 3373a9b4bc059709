//! Reading the tables out of the text of J2178-2, to check the rows by.

mod codes;
mod linear;
mod numeric;
mod table;

use super::{Prn, Slot, PRNS, SLOTS};
use std::collections::HashSet;
use table::{cells, slot_reference};

/// What the text prints, with what is passed over.
#[derive(Default)]
pub struct Reading {
    pub prns: Vec<Prn>,
    pub slots: Vec<Slot>,
    pub reserved: Vec<String>,
    pub twice: Vec<String>,
    pub left_out: Vec<String>,
    /// Codes inside the limits of a SED SLOT for which no state is printed.
    pub without_state: Vec<String>,
}

/// PRNs in rising order, SLOTs in rising order of form, width and number.
pub fn read(text: &str) -> Reading {
    let mut reading = Reading::default();
    for line in text.lines() {
        reading.take_prn_row(line);
    }
    let mut printed = numeric::slots(text);
    printed.extend(codes::slots(text));
    for (name, slot) in printed {
        match slot {
            Some(slot) => reading.slots.push(slot),
            None => reading.left_out.push(name),
        }
    }
    reading.without_state = codes::between_states(text);
    reading.keep_first_rows();
    reading.prns.sort_by_key(|row| row.prn);
    reading.slots.sort_by_key(Slot::key);
    reading
}

impl Reading {
    /// A row of tables 4 to 21 has five cells: the PRN first, the SLOT last.
    fn take_prn_row(&mut self, line: &str) {
        let cells = cells(line);
        let [prn, _, _, _, slot] = cells[..] else {
            return;
        };
        let digits = prn.trim_end_matches('-');
        let Ok(number) = u16::from_str_radix(digits, 16) else {
            return;
        };
        let is_page = !slot.is_empty() && slot.bytes().all(|byte| byte.is_ascii_digit());
        if digits.len() != 4 || is_page {
            return;
        }
        match slot_reference(slot) {
            Some((form, width, slot)) => self.prns.push(Prn::new(number, form, width, slot)),
            None if is_reserved(&cells) => self.reserved.push(line.to_string()),
            None => self.left_out.push(line.to_string()),
        }
    }

    /// Of two rows with one key the first stands.
    fn keep_first_rows(&mut self) {
        let twice = &mut self.twice;
        let mut prns = HashSet::new();
        self.prns.retain(|row| {
            let new = prns.insert(row.prn);
            if !new {
                twice.push(format!("{row:?}"));
            }
            new
        });
        let mut slots = HashSet::new();
        self.slots.retain(|row| {
            let new = slots.insert(row.key());
            if !new {
                twice.push(format!("{row:?}"));
            }
            new
        });
    }

    /// Every row that stands in the text or in the tables alone.
    pub fn differences(&self) -> Vec<String> {
        let mut list = only_in("text", &self.prns, PRNS);
        list.extend(only_in("tables", PRNS, &self.prns));
        list.extend(only_in("text", &self.slots, SLOTS));
        list.extend(only_in("tables", SLOTS, &self.slots));
        list
    }
}

/// Named as reserved, or the second line of such a row.
fn is_reserved(cells: &[&str]) -> bool {
    let is_named = cells.iter().any(|cell| cell.contains("Reserved"));
    is_named || cells[1..].iter().all(|cell| cell.is_empty())
}

fn only_in<T: PartialEq + std::fmt::Debug>(name: &str, rows: &[T], others: &[T]) -> Vec<String> {
    let alone = rows.iter().filter(|row| !others.contains(row));
    alone.map(|row| format!("in the {name}: {row:?}")).collect()
}

#[cfg(test)]
#[path = "source/source_tests.rs"]
mod tests;
