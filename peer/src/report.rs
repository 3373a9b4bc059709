//! The report of a supplement and a frame or message. What stands above the
//! frame is told of the parts alone, whichever bus they came by.

pub mod bits;
pub mod double;
pub mod item;
pub mod line;
pub mod neighbours;
pub mod number;
pub mod promise;
pub mod rows;
pub mod scene;
pub mod scene_random;

use crate::frame::refusal::OUTPUT_SHORT;
use crate::frame::{iso, reader, Parts};
use crate::sae::{self, Key, Prn, Slot};
use crate::supplement;
use crate::supplement::layout::{Layout, LayoutKey};
use crate::supplement::records::Records;
use crate::supplement::selector_length::{Header, MOST, USUAL};
use item::{Item, Place, WIDEST};
use line::{row_kind, unknown, Line};

/// What a report of a J1850 frame is asked of.
#[derive(Clone, Copy, Debug)]
pub struct Request<'a> {
    pub supplement: &'a [u8],
    pub first: &'a [u8],
    pub response: &'a [u8],
    pub out_length: usize,
}

/// The first byte without its priority if H = 0; the target, or 0 if H = 1.
pub fn header_of(parts: &Parts) -> Header {
    match parts.header {
        [first_byte] => [*first_byte, 0],
        header => [header[0] & 0x1F, header[1]],
    }
}

/// What a report seeks with an accepted frame's parts, and where its items begin.
#[derive(Debug, PartialEq)]
pub struct Sought<'a> {
    pub header: Header,
    /// The selector's length: what the header's kind 4 record says, if there is one.
    pub length: usize,
    /// What there is of the data up to that length.
    pub selector: &'a [u8],
    /// The data behind the selector.
    pub items: &'a [u8],
}

impl<'a> Sought<'a> {
    pub fn of(records: &Records, parts: &Parts<'a>) -> Sought<'a> {
        let header = header_of(parts);
        Sought::of_length(records.selector_length(header), parts)
    }

    /// The same, told what the header's kind 4 record says.
    pub fn of_length(recorded: Option<u8>, parts: &Parts<'a>) -> Sought<'a> {
        let length = usize::from(recorded.unwrap_or(USUAL));
        let (selector, items) = parts.data.split_at(length.min(parts.data.len()));
        Sought {
            header: header_of(parts),
            length,
            selector,
            items,
        }
    }

    /// The layout's length is the number of selector bytes that there are; absent
    /// ones are zero.
    pub fn layout_key(&self) -> LayoutKey {
        let [first_byte, target] = self.header;
        let mut selector = [0; MOST];
        selector[..self.selector.len()].copy_from_slice(self.selector);
        let length = self.selector.len() as u8;
        [first_byte, target, length, selector[0], selector[1]]
    }

    pub fn bits(&self) -> usize {
        8 * self.items.len()
    }
}

/// The PRN's row in the SAE tables or among the records.
pub fn find_prn(records: &Records, prn: u16) -> Option<Prn> {
    sae::prn_row(prn).or_else(|| records.prn(prn))
}

fn find_slot(records: &Records, key: Key) -> Option<Slot> {
    sae::slot_row(key).or_else(|| records.slot(key))
}

/// The lines of an accepted supplement and an accepted frame's parts: those of
/// the items, the remainder and the response.
pub fn lines(records: &Records, parts: &Parts) -> Vec<Line> {
    let sought = Sought::of(records, parts);
    let layout = records.layout(sought.layout_key());
    let mut lines = Vec::new();
    let mut place = Place::At(0);
    for prn in layout.iter().flat_map(Layout::used) {
        let item = item_at(place, find_prn(records, *prn), records, sought.items);
        let line = item::line(&item);
        place = item::place_after(&item, &line);
        lines.push(line);
    }
    lines.push(match place {
        _ if layout.is_none() => Line::Unknown(unknown::NO_LAYOUT),
        Place::Lost => Line::Unknown(unknown::PLACE_LOST),
        Place::Past => Line::Short,
        Place::At(end) => Line::Left((sought.bits() - end) as u8),
    });
    lines.push(match parts.kind {
        kind @ 0..=2 => Line::Answered(kind),
        _ => Line::Unknown(unknown::RESPONSE),
    });
    lines
}

fn item_at(place: Place, prn: Option<Prn>, records: &Records, data: &[u8]) -> Item {
    let mut item = Item {
        place,
        prn,
        slot: prn.and_then(|prn| find_slot(records, prn.slot_key())),
        bits: 8 * data.len(),
        raw: 0,
    };
    let is_inside = item.end().is_some_and(|end| end <= item.bits);
    if let (Place::At(start), true, true) = (place, is_inside, item.width() <= WIDEST) {
        item.raw = bits::cut(data, start, usize::from(item.width())) as u32;
    }
    item
}

/// The rows of all lines and of the verdict.
fn rows(lines: &[Line]) -> Vec<u8> {
    let mut rows: Vec<u8> = lines.iter().flat_map(line::row).collect();
    rows.extend([row_kind::VERDICT, line::verdict_on(lines)]);
    rows
}

/// The number that a report returns, and the bytes it puts at the start of the
/// lent output; none for a refusal. The supplement is tested, then what the
/// reader of the bus said, then the output.
pub fn answer_over(
    supplement: &[u8],
    read: Result<Parts, u8>,
    out_length: usize,
) -> (u64, Vec<u8>) {
    let of_supplement = supplement::answer(supplement);
    if of_supplement != 0 {
        return (of_supplement, Vec::new());
    }
    let parts = match read {
        Ok(parts) => parts,
        Err(number) => return (number.into(), Vec::new()),
    };
    let rows = rows(&lines(&Records::of(supplement), &parts));
    if out_length < rows.len() {
        return (OUTPUT_SHORT.into(), Vec::new());
    }
    ((rows.len() as u64) << 8, rows)
}

/// What `rakhubole_j1850_report` answers and writes.
pub fn answer(request: &Request) -> (u64, Vec<u8>) {
    let read = reader::read(request.first, request.response);
    answer_over(request.supplement, read, request.out_length)
}

/// What `rakhubole_iso9141_report` answers and writes.
pub fn iso_answer(supplement: &[u8], run: &[u8], out_length: usize) -> (u64, Vec<u8>) {
    answer_over(supplement, iso::read(run), out_length)
}

#[cfg(test)]
#[path = "report/report_tests.rs"]
mod tests;
