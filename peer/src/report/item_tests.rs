use super::*;
use crate::report::scene::whole_slot;
use crate::sae::slot_row;

/// An item that lies in the data, with a SLOT that takes every raw number.
fn item(form: u8, width: u8, raw: u32) -> Item {
    Item {
        place: Place::At(3),
        prn: Some(Prn::new(0x2000, form, width, 1000)),
        slot: Some(whole_slot(form, width, 1000)),
        bits: 72,
        raw,
    }
}

fn with_limits(mut item: Item, lowest: u32, highest: u32) -> Item {
    let slot = item.slot.as_mut().unwrap();
    (slot.lowest, slot.highest) = (lowest, highest);
    item
}

/// A Number with all three parts as they are told, none worked out.
fn fraction(above: i64, divisor: u16, double: f64) -> Line {
    Line::Number(Number {
        double: double.to_bits(),
        above,
        divisor,
    })
}

/// Over 1.
fn number(above: i32) -> Line {
    fraction(above.into(), 1, above.into())
}

#[test]
fn one_line_for_each_form() {
    let lines: Vec<Line> = (UNM..=PKT).map(|form| line(&item(form, 8, 0x41))).collect();
    let expected = [
        number(65),
        number(65),
        Line::State(0x41),
        Line::Bits(0x41),
        Line::Text(0x41),
        Line::Digits(0x41),
        Line::Unknown(4),
        Line::Unknown(4),
        Line::Unknown(4),
    ];
    assert_eq!(lines, expected);
}

#[test]
fn the_first_rule_that_applies() {
    let sound = item(UNM, 8, 0);
    let lost = Item {
        place: Place::Lost,
        prn: None,
        slot: None,
        ..sound
    };
    assert_eq!(line(&lost), Line::Unknown(2));
    let past = Item {
        place: Place::Past,
        ..lost
    };
    assert_eq!(line(&past), Line::Short);
    let missing = Item {
        place: Place::At(72),
        ..lost
    };
    assert_eq!(line(&missing), Line::Unknown(1));
    let short = Item {
        bits: 10,
        slot: None,
        ..item(PKT, 64, 0)
    };
    assert_eq!(line(&short), Line::Short);
    let without_slot = Item {
        slot: None,
        ..item(PKT, 64, 0)
    };
    assert_eq!(line(&without_slot), Line::Unknown(3));
    assert_eq!(line(&item(PKT, 64, 0)), Line::Unknown(4));
}

#[test]
fn ends_of_the_data() {
    for (width, expected) in [(5, number(1)), (6, Line::Short)] {
        let item = Item {
            bits: 8,
            ..item(UNM, width, 1)
        };
        assert_eq!(line(&item), expected);
    }
}

#[test]
fn widths() {
    for form in UNM..=BCD {
        assert_eq!(line(&item(form, 33, 0)), Line::Unknown(6));
        assert_eq!(line(&item(form, 64, 0)), Line::Unknown(6));
        assert_ne!(line(&item(form, 32, 0)), Line::Unknown(6));
    }
}

#[test]
fn limits_of_unsigned_numbers() {
    let with_raw = |raw| line(&with_limits(item(UNM, 32, raw), 2, 0x8000_0001));
    assert_eq!(with_raw(1), Line::Invalid(1));
    assert_eq!(with_raw(2), number(2));
    assert_eq!(with_raw(0x8000_0001), fraction(2147483649, 1, 2147483649.0));
    assert_eq!(with_raw(0x8000_0002), Line::Invalid(0x8000_0002));
}

#[test]
fn limits_of_signed_numbers() {
    let with_raw = |raw| line(&with_limits(item(SNM, 8, raw), -3_i32 as u32, 2));
    assert_eq!(with_raw(0xFC), Line::Invalid(0xFC));
    assert_eq!(with_raw(0xFD), number(-3));
    assert_eq!(with_raw(0xFF), number(-1));
    assert_eq!(with_raw(2), number(2));
    assert_eq!(with_raw(3), Line::Invalid(3));
    let beyond = with_limits(item(SNM, 4, 0xF), 0, 0x7FFF_FFFF);
    assert_eq!(line(&beyond), Line::Invalid(0xF));
}

#[test]
fn limits_of_states_and_of_forms_without() {
    for (form, expected) in [
        (SED, Line::Unknown(5)),
        (BMP, Line::Bits(0x39)),
        (ASC, Line::Text(0x39)),
        (BCD, Line::Digits(0x39)),
    ] {
        assert_eq!(line(&with_limits(item(form, 8, 0x39), 0, 0x38)), expected);
        assert_eq!(line(&with_limits(item(form, 8, 0x39), 0x3A, 99)), expected);
    }
    let state = with_limits(item(SED, 8, 0x39), 0x39, 0x39);
    assert_eq!(line(&state), Line::State(0x39));
}

#[test]
fn texts() {
    for (width, raw, expected) in [
        (8, 0x20, Line::Text(0x20)),
        (8, 0x7E, Line::Text(0x7E)),
        (8, 0x1F, Line::Invalid(0x1F)),
        (8, 0x7F, Line::Invalid(0x7F)),
        (16, 0x1F41, Line::Invalid(0x1F41)),
        (16, 0x41C1, Line::Invalid(0x41C1)),
        (32, 0x4142_4344, Line::Text(0x4142_4344)),
        (32, 0x0042_4344, Line::Invalid(0x0042_4344)),
        (12, 0x041, Line::Unknown(4)),
        (7, 0x41, Line::Unknown(4)),
        (40, 0, Line::Unknown(6)),
        (33, 0, Line::Unknown(6)),
    ] {
        assert_eq!(line(&item(ASC, width, raw)), expected);
    }
}

#[test]
fn digits() {
    for (width, raw, expected) in [
        (4, 9, Line::Digits(9)),
        (4, 10, Line::Invalid(10)),
        (12, 0x999, Line::Digits(0x999)),
        (12, 0xA00, Line::Invalid(0xA00)),
        (12, 0x00A, Line::Invalid(0x00A)),
        (32, 0x1234_5678, Line::Digits(0x1234_5678)),
        (6, 0x15, Line::Unknown(4)),
        (2, 3, Line::Unknown(4)),
        (36, 0, Line::Unknown(6)),
    ] {
        assert_eq!(line(&item(BCD, width, raw)), expected);
    }
}

fn value(form: u8, width: u8, raw: u32, scale: (u16, u16, i32)) -> Line {
    let mut item = item(form, width, raw);
    let slot = item.slot.as_mut().unwrap();
    (slot.multiplier, slot.divisor, slot.offset) = scale;
    line(&item)
}

#[test]
fn values() {
    let third = fraction(1, 3, 1.0 / 3.0);
    assert_eq!(value(UNM, 8, 1, (1, 3, 0)), third);
    assert_eq!(value(SNM, 8, 0xFB, (8, 7, 40)), fraction(0, 7, 0.0));
    assert_eq!(value(UNM, 8, 9, (0, 65535, 0)), fraction(0, 65535, 0.0));
    let twice = fraction(-4, 2, -2.0);
    assert_eq!(value(SNM, 8, 0xFE, (2, 2, 0)), twice);
}

/// (N x multiplier + offset) at both ends, over the ends of the divisor.
#[test]
fn ends_of_values() {
    let most = 281_472_829_161_472;
    let least = -(1 << 47);
    for divisor in [1, 65535] {
        let given = value(UNM, 32, u32::MAX, (65535, divisor, i32::MAX));
        let double = most as f64 / f64::from(divisor);
        assert_eq!(given, fraction(most, divisor, double));
        let given = value(SNM, 32, 0x8000_0000, (65535, divisor, i32::MIN));
        let double = least as f64 / f64::from(divisor);
        assert_eq!(given, fraction(least, divisor, double));
    }
}

/// P1 to P10 of the bench cases, those that are Numbers.
#[test]
fn values_of_the_bench() {
    let of_slot = |width, number, raw| {
        let slot = slot_row((UNM, width, number)).unwrap();
        let item = item(UNM, width, raw);
        line(&Item {
            slot: Some(slot),
            ..item
        })
    };
    assert_eq!(of_slot(8, 77, 150), fraction(300, 3, 100.0));
    assert_eq!(of_slot(8, 82, 240), fraction(360, 4, 90.0));
    assert_eq!(of_slot(8, 92, 0), fraction(-12800, 128, -100.0));
    assert_eq!(of_slot(8, 92, 128), fraction(0, 128, 0.0));
    assert_eq!(of_slot(16, 3, 0), fraction(-17920, 256, -70.0));
    assert_eq!(of_slot(8, 102, 39), fraction(-1, 1, -1.0));
    assert_eq!(line(&item(SNM, 8, 0x80)), fraction(-128, 1, -128.0));
    assert_eq!(line(&item(SNM, 8, 0xFF)), fraction(-1, 1, -1.0));
}

#[test]
fn places_after_an_item() {
    let sound = item(UNM, 8, 0);
    assert_eq!(place_after(&sound, &number(0)), Place::At(11));
    assert_eq!(place_after(&sound, &Line::Unknown(3)), Place::At(11));
    assert_eq!(place_after(&sound, &Line::Short), Place::Past);
    let missing = Item { prn: None, ..sound };
    assert_eq!(place_after(&missing, &Line::Unknown(1)), Place::Lost);
    let lost = Item {
        place: Place::Lost,
        ..sound
    };
    assert_eq!(place_after(&lost, &Line::Unknown(2)), Place::Lost);
}
