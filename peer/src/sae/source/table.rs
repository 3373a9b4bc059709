//! Lines of the text taken apart.

use crate::sae::{form, Key};

/// The cells between the bars of a table's row; none for another line.
pub fn cells(line: &str) -> Vec<&str> {
    let line = line.trim();
    let Some(inner) = line
        .strip_prefix('|')
        .and_then(|rest| rest.strip_suffix('|'))
    else {
        return Vec::new();
    };
    inner.split('|').map(str::trim).collect()
}

/// The first word or cell of a line, and all that follows it.
pub fn first_words(line: &str) -> (&str, String) {
    let cells = cells(line);
    match cells.split_first() {
        Some((first, rest)) => (first, rest.join(" ").trim().to_string()),
        None => {
            let line = line.trim();
            let (first, rest) = line.split_once(' ').unwrap_or((line, ""));
            (first, rest.trim().to_string())
        }
    }
}

/// Form, width and number of a reference like UNM-08-101.
pub fn slot_reference(text: &str) -> Option<Key> {
    let parts: Vec<&str> = text.split('-').collect();
    let [letters, width, number] = parts[..] else {
        return None;
    };
    let width: u8 = width.parse().ok()?;
    let in_range = (1..=64).contains(&width);
    let key = (form::of_letters(letters)?, width, number.parse().ok()?);
    in_range.then_some(key)
}
