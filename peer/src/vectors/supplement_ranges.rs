//! Records with each field at both sides of its bounds.

use crate::random::Random;
use crate::supplement::draft::{
    layout_record, prn_record, random_header, random_layout, random_prn, random_selector_length,
    random_slot, selector_length_record, slot_record, Bytes,
};
use crate::supplement::layout::Layout;
use crate::supplement::selector_length::{Header, SelectorLength};

pub fn cases(random: &mut Random) -> Vec<Bytes> {
    let groups = [
        slot_fields(random),
        slot_limits(random),
        prn_fields(random),
        headers(random),
        selectors(random),
        selector_lengths(random),
        counts(random),
        one_prn(),
    ];
    groups.into_iter().flatten().collect()
}

const FORMS: [u8; 15] = [0, 1, 2, 3, 4, 5, 6, 7, 8, 9, 10, 11, 127, 128, 255];
const WIDTHS: [u8; 11] = [0, 1, 2, 31, 32, 33, 63, 64, 65, 128, 255];
const DIVISORS: [u16; 7] = [0, 1, 2, 255, 256, 65280, 65535];

fn slot_fields(random: &mut Random) -> Vec<Bytes> {
    let mut list = Vec::new();
    for form in FORMS {
        let mut slot = random_slot(random);
        slot.form = form;
        (slot.number, slot.lowest, slot.highest) = (2000, 0, 9);
        list.push(slot_record(&slot));
    }
    for width in WIDTHS {
        let mut slot = random_slot(random);
        (slot.width, slot.number) = (width, 3000);
        list.push(slot_record(&slot));
    }
    for divisor in DIVISORS {
        let mut slot = random_slot(random);
        slot.divisor = divisor;
        list.push(slot_record(&slot));
        slot.multiplier = 0;
        list.push(slot_record(&slot));
    }
    list
}

/// Pairs of numbers at the turns of each byte and of the sign.
const LIMITS: [(u32, u32); 15] = [
    (0, 0),
    (0, 1),
    (0, 0xFFFF_FFFF),
    (0x7F, 0xFFFF_FF80),
    (0xFF, 0x100),
    (0xFFFF, 0x1_0000),
    (0xFF_FFFF, 0x100_0000),
    (0x01FF, 0x0200),
    (0x7FFF_FFFF, 0x8000_0000),
    (0x8000_0000, 0xFFFF_FFFF),
    (0x8000_0000, 0x8000_0001),
    (0x1234_5678, 0x1234_5678),
    (0x1234_5678, 0x1234_5778),
    (0x1234_5678, 0x1235_5678),
    (0xFFFF_FFFE, 0xFFFF_FFFF),
];

/// Each pair both ways, under each form.
fn slot_limits(random: &mut Random) -> Vec<Bytes> {
    let mut list = Vec::new();
    for form in 1..=9 {
        for (a, b) in LIMITS {
            let mut slot = random_slot(random);
            (slot.form, slot.number) = (form, 4000);
            (slot.lowest, slot.highest) = (a, b);
            list.push(slot_record(&slot));
            (slot.lowest, slot.highest) = (b, a);
            list.push(slot_record(&slot));
        }
    }
    list
}

fn prn_fields(random: &mut Random) -> Vec<Bytes> {
    let mut list = Vec::new();
    for form in FORMS {
        let mut prn = random_prn(random);
        prn.form = form;
        list.push(prn_record(&prn));
    }
    for width in WIDTHS {
        let mut prn = random_prn(random);
        prn.width = width;
        list.push(prn_record(&prn));
    }
    for number in [0, 1, 999, 1000, 65535] {
        let mut prn = random_prn(random);
        prn.number = number;
        list.push(prn_record(&prn));
    }
    list
}

/// Each first byte with the target zero and not zero, in a layout and in a kind 4
/// record.
fn headers(random: &mut Random) -> Vec<Bytes> {
    let mut list = Vec::new();
    for first_byte in 0..=255 {
        for target in [0, random.between(1, 255) as u8] {
            list.extend(of_header([first_byte, target], random));
        }
    }
    for target in [1, 0x80, 0xFF] {
        list.extend(of_header([0x1A, target], random));
        list.extend(of_header([0x0A, target], random));
    }
    list
}

fn of_header(header: Header, random: &mut Random) -> [Bytes; 2] {
    let mut layout = random_layout(random);
    [layout.first_byte, layout.target] = header;
    let record = SelectorLength {
        header,
        ..random_selector_length(random)
    };
    [layout_record(&layout), selector_length_record(&record)]
}

const LENGTHS: [u8; 9] = [0, 1, 2, 3, 4, 0x41, 0x80, 0x82, 0xFF];

/// Each length of a layout's selector with each byte zero and not.
fn selectors(random: &mut Random) -> Vec<Bytes> {
    let mut list = Vec::new();
    for length in LENGTHS {
        for first in [0, 1, 0x41, 0x80, 0xFF] {
            for second in [0, 1, 0x0C, 0x80, 0xFF] {
                let mut layout = random_layout(random);
                (layout.selector_length, layout.selector) = (length, [first, second]);
                list.push(layout_record(&layout));
            }
        }
    }
    list
}

/// Each length in a kind 4 record.
fn selector_lengths(random: &mut Random) -> Vec<Bytes> {
    let mut list = Vec::new();
    for length in 0..=255 {
        let header = random_header(random);
        list.push(selector_length_record(&SelectorLength { header, length }));
    }
    for length in LENGTHS {
        for header in [[0x08, 0x6B], [0x18, 0]] {
            list.push(selector_length_record(&SelectorLength { header, length }));
        }
    }
    list
}

/// Each count with no PRN but zeros, with as many others as it says, and with
/// no PRN zero.
fn counts(random: &mut Random) -> Vec<Bytes> {
    let mut list = Vec::new();
    for count in (0..=18).chain([32, 127, 128, 255]) {
        for others in [0, usize::from(count).min(16), 16] {
            let prns: Vec<u16> = (0..others).map(|_| random.number() as u16 | 1).collect();
            let mut layout = random_layout(random).with_prns(&prns);
            layout.count = count;
            list.push(layout_record(&layout));
        }
    }
    list
}

/// Each count with one PRN that is not zero, at each place and in each byte.
fn one_prn() -> Vec<Bytes> {
    let mut list = Vec::new();
    for count in 0..=16 {
        for place in 0..16 {
            for prn in [0x0001, 0x8000] {
                let mut layout = Layout::of_key([0x08, 0x6B, 1, 0x41, 0]);
                layout.count = count;
                layout.prns[place] = prn;
                list.push(layout_record(&layout));
            }
        }
    }
    list
}
