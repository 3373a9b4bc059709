//! The listing of both SAE tables.

use super::Files;
use crate::sae::{form, Prn, Slot, PRNS, SLOTS};

/// The file, the counts, and no class without a case.
pub fn make() -> (Files, String, Vec<String>) {
    let mut listing: String = PRNS.iter().map(prn_line).collect();
    listing.extend(SLOTS.iter().map(slot_line));
    (Files::listing(&listing), summary(), Vec::new())
}

fn prn_line(row: &Prn) -> String {
    let Prn {
        prn,
        form,
        width,
        number,
    } = row;
    format!("P {prn:04X} {form:02X} {width:02X} {number:04X}\n")
}

fn slot_line(row: &Slot) -> String {
    let (form, width, number) = row.key();
    let (multiplier, divisor, offset) = (row.multiplier, row.divisor, row.offset);
    let (lowest, highest) = (row.lowest, row.highest);
    let scale = format!("{multiplier:04X} {divisor:04X} {offset:08X}");
    format!("S {form:02X} {width:02X} {number:04X} {scale} {lowest:08X} {highest:08X}\n")
}

fn summary() -> String {
    let by_form = form::LETTERS.iter().zip(1..).map(|(letters, form)| {
        let count = SLOTS.iter().filter(|slot| slot.form == form).count();
        format!("{letters} {count}")
    });
    let by_form = by_form.collect::<Vec<String>>().join(", ");
    format!(
        "tables: {} PRN rows; {} SLOTs ({by_form})",
        PRNS.len(),
        SLOTS.len()
    )
}
