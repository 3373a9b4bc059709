//! Sections 9.2, 9.6, 9.7 and 9.8: BMP, SED, ASC and BCD.

use super::table::{first_words, slot_reference};
use crate::sae::form::{ASC, BCD, BMP, SED};
use crate::sae::{all_ones, Slot};
use std::ops::RangeInclusive;

/// Each SLOT printed by its name; none where it does not fit the fields.
pub fn slots(text: &str) -> Vec<(String, Option<Slot>)> {
    let mut list = Vec::new();
    let lines: Vec<&str> = text.lines().collect();
    for (place, line) in lines.iter().enumerate() {
        let (name, _) = first_words(line);
        let limits = match slot_reference(name) {
            Some((BMP | ASC | BCD, width, _)) => Some((0, all_ones(width))),
            Some((SED, _, _)) => Printed::of(&lines[place + 1..]).limits(),
            _ => continue,
        };
        let slot = slot_reference(name)
            .zip(limits)
            .map(|(key, limits)| Slot::new(key, (1, 1, 0), limits));
        list.push((name.to_string(), slot));
    }
    list
}

/// The codes between two states of a SED SLOT that are none themselves, with
/// what the text calls them.
pub fn between_states(text: &str) -> Vec<String> {
    let mut list = Vec::new();
    let lines: Vec<&str> = text.lines().collect();
    for (place, line) in lines.iter().enumerate() {
        let (name, _) = first_words(line);
        if matches!(slot_reference(name), Some((SED, _, _))) {
            let printed = Printed::of(&lines[place + 1..]);
            let runs = printed.between_states();
            let shown = |run: &(Codes, &str)| format!("{name} {} {}", digits(&run.0), run.1);
            list.extend(runs.iter().map(shown));
        }
    }
    list
}

type Codes = RangeInclusive<u32>;

/// The codes of a SLOT with their labels, and what all others are called.
struct Printed {
    rows: Vec<(Codes, String)>,
    others: String,
}

impl Printed {
    /// From the lines up to the next SLOT or section.
    fn of(lines: &[&str]) -> Printed {
        let mut printed = Printed {
            rows: Vec::new(),
            others: "not printed".to_string(),
        };
        for line in lines {
            let (first, label) = first_words(line);
            if slot_reference(first).is_some() || line.starts_with("- 9.") {
                break;
            }
            match range(first) {
                Some(codes) if !label.is_empty() => printed.rows.push((codes, label)),
                None if first == "Others" => printed.others = label,
                _ => {}
            }
        }
        printed
    }

    fn states(&self) -> impl Iterator<Item = &Codes> {
        let is_state =
            |label: &str| !label.starts_with("Invalid") && !label.starts_with("Reserved");
        let rows = self.rows.iter().filter(move |row| is_state(&row.1));
        rows.map(|row| &row.0)
    }

    /// The lowest and the highest state: what is reserved or invalid counts at
    /// neither end, and what lies between two states is inside, whatever the
    /// text calls it.
    fn limits(&self) -> Option<(u32, u32)> {
        let lowest = *self.states().map(Codes::start).min()?;
        let highest = *self.states().map(Codes::end).max()?;
        Some((lowest, highest))
    }

    /// Runs of codes with one label, inside the limits and without a state.
    fn between_states(&self) -> Vec<(Codes, &str)> {
        let mut runs: Vec<(Codes, &str)> = Vec::new();
        let Some((lowest, highest)) = self.limits() else {
            return runs;
        };
        for code in lowest..=highest {
            if self.states().any(|codes| codes.contains(&code)) {
                continue;
            }
            let label = self.label(code);
            match runs.last_mut() {
                Some(run) if *run.0.end() + 1 == code && run.1 == label => {
                    run.0 = *run.0.start()..=code;
                }
                _ => runs.push((code..=code, label)),
            }
        }
        runs
    }

    fn label(&self, code: u32) -> &str {
        let row = self.rows.iter().find(|row| row.0.contains(&code));
        row.map_or(&self.others, |row| &row.1)
    }
}

/// Codes like 0A, 02-0F or 04 - FF.
fn range(text: &str) -> Option<Codes> {
    let (first, last) = text.split_once('-').unwrap_or((text, text));
    let code = |digits: &str| u32::from_str_radix(digits.trim(), 16).ok();
    Some(code(first)?..=code(last)?)
}

/// As the text prints them: 0A or 02-0F.
fn digits(codes: &Codes) -> String {
    let (first, last) = (codes.start(), codes.end());
    if first == last {
        format!("{first:02X}")
    } else {
        format!("{first:02X}-{last:02X}")
    }
}
