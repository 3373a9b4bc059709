use super::form::*;
use super::*;

fn slot(form: u8, width: u8, number: u16) -> Slot {
    let key = (form, width, number);
    let found = SLOTS.iter().find(|slot| slot.key() == key);
    *found.expect("a SLOT of this key")
}

/// Number, multiplier, divisor, offset and highest raw number; the lowest is 0.
const PUBLISHED: [(u8, u16, u16, u16, i32, u32); 10] = [
    (8, 73, 1, 2, -80, 255),
    (8, 77, 2, 3, 0, 150),
    (8, 82, 3, 4, -360, 240),
    (8, 92, 100, 128, -12800, 255),
    (8, 101, 1, 1, 0, 255),
    (8, 102, 1, 1, -40, 255),
    (8, 111, 3, 2, 0, 240),
    (8, 241, 4096, 1, 0, 255),
    (16, 3, 1, 256, -17920, 65535),
    (16, 61, 64, 1, 0, 65535),
];

#[test]
fn the_ten_slots_of_the_paper() {
    for (width, number, multiplier, divisor, offset, highest) in PUBLISHED {
        let scale = (multiplier, divisor, offset);
        let expected = Slot::new((UNM, width, number), scale, (0, highest));
        assert_eq!(slot(UNM, width, number), expected);
    }
}

#[test]
fn rows_rise_and_no_key_stands_twice() {
    assert!(PRNS.windows(2).all(|pair| pair[0].prn < pair[1].prn));
    assert!(SLOTS.windows(2).all(|pair| pair[0].key() < pair[1].key()));
}

#[test]
fn fields_are_in_their_ranges() {
    for row in PRNS {
        assert!((UNM..=PKT).contains(&row.form), "{row:?}");
        assert!((1..=64).contains(&row.width), "{row:?}");
    }
    for row in SLOTS {
        assert!((UNM..=BCD).contains(&row.form), "{row:?}");
        assert!((1..=64).contains(&row.width), "{row:?}");
        assert!(row.divisor >= 1, "{row:?}");
        if row.form == SNM {
            assert!(row.lowest as i32 <= row.highest as i32, "{row:?}");
        } else {
            assert!(row.lowest <= row.highest, "{row:?}");
            assert!(row.highest <= all_ones(row.width), "{row:?}");
        }
        if row.form > SNM {
            assert_eq!((row.multiplier, row.divisor, row.offset), (1, 1, 0));
        }
        if row.form > SED {
            assert_eq!((row.lowest, row.highest), (0, all_ones(row.width)));
        }
    }
}

#[test]
fn counts() {
    assert_eq!(PRNS.len(), 308);
    let of_form = |form: u8| SLOTS.iter().filter(|slot| slot.form == form).count();
    let counts: Vec<usize> = (UNM..=PKT).map(of_form).collect();
    assert_eq!(SLOTS.len(), 149);
    assert_eq!(counts, [87, 5, 22, 14, 7, 14, 0, 0, 0]);
}

#[test]
fn zero_fill() {
    let widths: Vec<u8> = SLOTS
        .iter()
        .filter(|slot| slot.number == 0)
        .map(|slot| slot.width)
        .collect();
    assert_eq!(widths, [1, 2, 3, 4, 5, 6, 7, 8, 16, 24, 32, 40, 48, 56]);
    for slot in SLOTS.iter().filter(|slot| slot.number == 0) {
        assert_eq!((slot.form, slot.multiplier, slot.divisor), (UNM, 0, 1));
        assert_eq!((slot.offset, slot.lowest, slot.highest), (0, 0, 0));
    }
}

#[test]
fn limits_of_other_forms() {
    let limits = |form, width, number| {
        let slot = slot(form, width, number);
        (slot.lowest, slot.highest)
    };
    assert_eq!(limits(SNM, 8, 21), (0xFFFF_FF80, 0x7F));
    assert_eq!(limits(SED, 2, 3), (0, 2));
    assert_eq!(limits(SED, 6, 1), (0, 0x20));
    assert_eq!(limits(SED, 6, 2), (0, 0x25));
    assert_eq!(limits(SED, 8, 1), (1, 6));
    assert_eq!(limits(SED, 8, 4), (0, 0x80));
    assert_eq!(limits(SED, 8, 5), (1, 0x10));
    assert_eq!(limits(BMP, 1, 1), (0, 1));
    assert_eq!(limits(BMP, 32, 3), (0, 0xFFFF_FFFF));
    assert_eq!(limits(ASC, 24, 1), (0, 0xFF_FFFF));
    assert_eq!(limits(ASC, 56, 1), (0, 0xFFFF_FFFF));
    assert_eq!(limits(BCD, 12, 1), (0, 0xFFF));
}

#[test]
fn every_row_is_found_by_its_key() {
    for row in PRNS {
        assert_eq!(prn_row(row.prn), Some(*row));
    }
    for row in SLOTS {
        assert_eq!(slot_row(row.key()), Some(*row));
    }
}

#[test]
fn what_is_reserved_or_not_transcribed_is_not_found() {
    for prn in [0x001C, 0x100C, 0x380D, 0xFFFF] {
        assert_eq!(prn_row(prn), None);
    }
    for key in [(UNM, 8, 103), (UNM, 32, 31), (SED, 8, 13), (ASC, 8, 11)] {
        assert_eq!(slot_row(key), None);
    }
    assert!(!has_slot((PKT, 8, 1)) && !has_slot((SFP, 32, 1)));
}
