//! Numbers at the ends of their fields, on both buses. The bits of the doubles and
//! of the whole numbers above the line are written out, not computed by the rules.

use super::report_bench::{accepted, layout, number_of_bits, refused, Bench, CLEAR};
use crate::case::Case;
use crate::frame::bus::Bus;
use crate::report::scene::own_rows;
use crate::sae::form::{SNM, UNM};
use crate::sae::Slot;
use crate::supplement::draft::{prn_record, slot_record};
use crate::supplement::record::PLACES;

/// Multiplier, divisor and offset.
type Scale = (u16, u16, i32);

/// A name; form, width and scale of a SLOT; the item's bits; the bits of the double
/// and of the whole number above the line.
type Extreme = (&'static str, u8, u8, Scale, u32, u64, u64);

const MOST: u16 = u16::MAX;
const LOW: i32 = i32::MIN;
const HIGH: i32 = i32::MAX;

#[rustfmt::skip]
const EXTREMES: [Extreme; 28] = [
    ("multiplier 65535 at FFFFFFFFh",
        UNM, 32, (MOST, 1, 0), 0xFFFF_FFFF, 0x42EFFFDFFFE00020, 0x0000FFFEFFFF0001),
    ("multiplier and divisor 65535 at FFFFFFFFh",
        UNM, 32, (MOST, MOST, 0), 0xFFFF_FFFF, 0x41EFFFFFFFE00000, 0x0000FFFEFFFF0001),
    ("multiplier 65535 at FFFFFFFFh with offset 80000000h",
        UNM, 32, (MOST, 1, LOW), 0xFFFF_FFFF, 0x42EFFFCFFFE00020, 0x0000FFFE7FFF0001),
    ("multiplier 65535 at FFFFFFFFh with offset 7FFFFFFFh",
        UNM, 32, (MOST, 1, HIGH), 0xFFFF_FFFF, 0x42EFFFEFFFE00000, 0x0000FFFF7FFF0000),
    ("the most above the line with divisor 65535",
        UNM, 32, (MOST, MOST, HIGH), 0xFFFF_FFFF, 0x41F00007FFF7FFF8, 0x0000FFFF7FFF0000),
    ("divisor 1 at FFFFFFFFh",
        UNM, 32, (1, 1, 0), 0xFFFF_FFFF, 0x41EFFFFFFFE00000, 0x00000000FFFFFFFF),
    ("offset 80000000h at 0",
        UNM, 32, (1, 1, LOW), 0, 0xC1E0000000000000, 0xFFFFFFFF80000000),
    ("offset 7FFFFFFFh at 0",
        UNM, 32, (1, 1, HIGH), 0, 0x41DFFFFFFFC00000, 0x000000007FFFFFFF),
    ("offset 80000000h at 0 with divisor 65535",
        UNM, 32, (MOST, MOST, LOW), 0, 0xC0E0001000100010, 0xFFFFFFFF80000000),
    ("offset 7FFFFFFFh at 0 with divisor 65535",
        UNM, 32, (MOST, MOST, HIGH), 0, 0x40E0000FFFEFFFF0, 0x000000007FFFFFFF),
    ("multiplier 65535 at 1 with offset 80000000h",
        UNM, 32, (MOST, 1, LOW), 1, 0xC1DFFFC000400000, 0xFFFFFFFF8000FFFF),
    ("divisor 65535 at 1",
        UNM, 32, (1, MOST, 0), 1, 0x3EF0001000100010, 1),
    ("divisor 65535 at 65535",
        UNM, 32, (1, MOST, 0), 0xFFFF, 0x3FF0000000000000, 0xFFFF),
    ("divisor 65535 at 0",
        UNM, 32, (1, MOST, 0), 0, 0, 0),
    ("SNM at its lowest",
        SNM, 32, (MOST, 1, LOW), 0x8000_0000, 0xC2E0000000000000, 0xFFFF800000000000),
    ("SNM at its lowest with divisor 65535",
        SNM, 32, (MOST, MOST, LOW), 0x8000_0000, 0xC1E0001000100010, 0xFFFF800000000000),
    ("SNM at 80000000h with divisor 1",
        SNM, 32, (1, 1, 0), 0x8000_0000, 0xC1E0000000000000, 0xFFFFFFFF80000000),
    ("SNM at its highest",
        SNM, 32, (MOST, 1, HIGH), 0x7FFF_FFFF, 0x42DFFFFFFFC00000, 0x00007FFFFFFF0000),
    ("SNM at -1",
        SNM, 32, (1, 1, 0), 0xFFFF_FFFF, 0xBFF0000000000000, 0xFFFFFFFFFFFFFFFF),
    ("SNM at -1 with multiplier and divisor 65535",
        SNM, 32, (MOST, MOST, 0), 0xFFFF_FFFF, 0xBFF0000000000000, 0xFFFFFFFFFFFF0001),
    ("SNM at -1 with divisor 65535",
        SNM, 32, (1, MOST, 0), 0xFFFF_FFFF, 0xBEF0001000100010, 0xFFFFFFFFFFFFFFFF),
    ("SNM at -1 with 0 above the line",
        SNM, 32, (MOST, MOST, 65535), 0xFFFF_FFFF, 0, 0),
    ("width 8: multiplier 65535 at FFh",
        UNM, 8, (MOST, 1, 0), 0xFF, 0x416FDFE020000000, 0x0000000000FEFF01),
    ("width 8: offset 80000000h with divisor 65535",
        UNM, 8, (MOST, MOST, LOW), 0xFF, 0xC0DFC06000200020, 0xFFFFFFFF80FEFF01),
    ("width 8: SNM at its lowest",
        SNM, 8, (MOST, 1, LOW), 0x80, 0xC1E00FFFF0000000, 0xFFFFFFFF7F800080),
    ("width 31: multiplier 65535 with offset 7FFFFFFFh",
        UNM, 31, (MOST, 1, HIGH), 0x7FFF_FFFF, 0x42DFFFFFFFC00000, 0x00007FFFFFFF0000),
    ("width 31: SNM at its lowest",
        SNM, 31, (MOST, 1, LOW), 0x4000_0000, 0xC2D0001000000000, 0xFFFFBFFFC0000000),
    ("width 31: SNM at -1",
        SNM, 31, (1, 1, 0), 0x7FFF_FFFF, 0xBFF0000000000000, 0xFFFFFFFFFFFFFFFF),
];

pub fn all() -> Vec<Bench> {
    let mut list = Vec::new();
    for bus in Bus::BOTH {
        list.extend(EXTREMES.iter().map(|extreme| bench(bus, extreme)));
        list.extend(sixteen(bus));
    }
    list
}

fn name_on(bus: Bus, name: &str) -> String {
    match bus {
        Bus::J1850 => name.to_string(),
        Bus::Iso9141 => format!("ISO: {name}"),
    }
}

/// So many items of one PRN, whose SLOT has this scale and takes every raw number.
fn case(bus: Bus, (form, width): (u8, u8), scale: Scale, count: usize, items: &[u8]) -> Case {
    let (prn, slot) = own_rows(0, form, width);
    let slot = Slot::new(slot.key(), scale, (slot.lowest, slot.highest));
    let layout = layout(&vec![prn.prn; count]);
    let supplement = [layout, prn_record(&prn), slot_record(&slot)].concat();
    let run = bus.checked(&[&[0x48, 0x6B, 0x10, 0x41], items].concat());
    Case::report_on(bus, supplement, (run, Vec::new()))
}

/// The item begins the data; one of 31 bits leaves the last bit.
fn bench(bus: Bus, extreme: &Extreme) -> Bench {
    let (name, form, width, scale, raw, double, above) = *extreme;
    let bits = (raw << (32 - width)).to_be_bytes();
    let items = &bits[..usize::from(width).div_ceil(8)];
    let last: &[u8] = match width {
        31 => &[9, 1, 10, 0, 11, 2],
        _ => &CLEAR,
    };
    let rows = [&number_of_bits(double, above, scale.1), last];
    let case = case(bus, (form, width), scale, 1, items);
    accepted(name_on(bus, name), case, &rows)
}

/// Sixteen items of one bit, 0 and -1 by turns: the longest report, lent its
/// length, one byte less and one more.
fn sixteen(bus: Bus) -> Vec<Bench> {
    let whole = case(bus, (SNM, 1), (MOST, 3, LOW), PLACES, &[0x55, 0x55]);
    let zero = number_of_bits(0xC1C5555555555555, 0xFFFFFFFF80000000, 3);
    let minus_one = number_of_bits(0xC1C5557FFFD55555, 0xFFFFFFFF7FFF0001, 3);
    let items = [zero, minus_one].concat().repeat(PLACES / 2);
    let rows = [&items[..], &CLEAR];
    let lent = |out_length| whole.clone().lent(out_length);
    let name = |name| name_on(bus, name);
    vec![
        accepted(name("sixteen Numbers lent 310"), lent(310), &rows),
        accepted(name("sixteen Numbers lent 311"), lent(311), &rows),
        refused(name("sixteen Numbers lent 309"), lent(309), 8),
    ]
}
