use super::draft::{
    layout_record, old_layout_record, prn_record, selector_length_record, slot_record,
};
use super::layout::Layout;
use super::record::{length_of, KINDS, SLOT};
use super::selector_length::{Header, SelectorLength};
use super::*;
use crate::sae::form::*;
use crate::sae::{Prn, Slot, PRNS, SLOTS};

const OWN_SLOT: Slot = Slot::new((UNM, 8, 1000), (1, 1, -40), (0, 255));

const OWN_PRN: Prn = Prn::new(0x1234, UNM, 8, 1000);

/// The layout of the whole report among the bench cases.
fn bench_layout() -> Layout {
    Layout::of_key([0x08, 0x6B, 1, 0x41, 0]).with_prns(&[0x1025, 0x100B])
}

fn length_record(header: Header, length: u8) -> Vec<u8> {
    selector_length_record(&SelectorLength { header, length })
}

/// One of each kind, in the order of `KINDS`.
fn four_records() -> Vec<u8> {
    [
        slot_record(&OWN_SLOT),
        prn_record(&OWN_PRN),
        layout_record(&bench_layout()),
        length_record([0x08, 0x6A], 2),
    ]
    .concat()
}

#[test]
fn accepted() {
    assert_eq!(answer(&[]), 0);
    assert_eq!(answer(&four_records()), 0);
    let bench = layout_record(&bench_layout());
    assert_eq!(
        bench[..11],
        [3, 8, 0x6B, 1, 0x41, 0, 2, 0x10, 0x25, 0x10, 0x0B]
    );
    assert_eq!(bench.len(), 39);
    assert_eq!(answer(&bench), 0);
    assert_eq!(length_record([0x08, 0x6A], 2), [4, 0x08, 0x6A, 2]);
}

#[test]
fn sizes() {
    assert_eq!(answer(&[0; 16_385]), 10);
    assert_eq!(answer(&[0; 16_384]), 11);
    assert_eq!(answer(&vec![2; 70_000]), 10);
}

#[test]
fn unknown_kinds() {
    for byte in [0, 5, 6, 0x80, 0xFF] {
        let first = [&[byte], &four_records()[..]].concat();
        assert_eq!(answer(&first), 11);
        let last = [&four_records()[..], &[byte]].concat();
        assert_eq!(answer(&last), refused_answer(11, four_records().len()));
    }
}

#[test]
fn cuts() {
    let whole = four_records();
    let mut place = 0;
    for length in KINDS.map(length_of) {
        assert_eq!(answer(&whole[..place]), 0);
        for end in place + 1..place + length {
            assert_eq!(answer(&whole[..end]), refused_answer(12, place), "{end}");
        }
        place += length;
    }
    assert_eq!(answer(&whole[..place]), 0);
}

fn slot_answer(change: fn(&mut Slot)) -> u64 {
    let mut slot = OWN_SLOT;
    change(&mut slot);
    answer(&slot_record(&slot))
}

#[test]
fn ranges_of_a_slot() {
    assert_eq!(slot_answer(|slot| slot.form = 0), 13);
    assert_eq!(slot_answer(|slot| slot.form = 9), 0);
    assert_eq!(slot_answer(|slot| slot.form = 10), 13);
    assert_eq!(slot_answer(|slot| slot.width = 0), 13);
    assert_eq!(slot_answer(|slot| slot.width = 64), 0);
    assert_eq!(slot_answer(|slot| slot.width = 65), 13);
    assert_eq!(slot_answer(|slot| slot.divisor = 0), 13);
    assert_eq!(slot_answer(|slot| slot.divisor = 0x100), 0);
    assert_eq!(slot_answer(|slot| slot.multiplier = 0), 0);
}

#[test]
fn limits_of_a_slot() {
    for (lowest, highest, unsigned, signed) in [
        (0, 0, 0, 0),
        (1, 0, 13, 13),
        (0x7FFF_FFFF, 0x8000_0000, 0, 13),
        (0x8000_0000, 0x7FFF_FFFF, 13, 0),
        (0xFFFF_FF80, 0x7F, 13, 0),
        (0xFFFF_FFFF, 0xFFFF_FFFE, 13, 13),
    ] {
        for form in 1..=9 {
            let slot = Slot {
                form,
                lowest,
                highest,
                ..OWN_SLOT
            };
            let expected = if form == SNM { signed } else { unsigned };
            assert_eq!(answer(&slot_record(&slot)), expected, "{slot:X?}");
        }
    }
}

#[test]
fn ranges_of_a_prn() {
    for (form, width, expected) in [
        (0, 8, 13),
        (1, 1, 0),
        (9, 64, 0),
        (10, 8, 13),
        (1, 0, 13),
        (1, 65, 13),
    ] {
        let prn = Prn::new(0x1234, form, width, 0);
        assert_eq!(answer(&prn_record(&prn)), expected, "{prn:?}");
    }
}

#[test]
fn ranges_of_headers() {
    for (header, expected) in [
        ([0x08, 0x6B], 0),
        ([0x28, 0x6B], 13),
        ([0x88, 0x6B], 13),
        ([0xF8, 0x00], 0),
        ([0x18, 0x01], 13),
        ([0x00, 0x00], 0),
    ] {
        let layout = Layout::of_key([header[0], header[1], 2, 0x41, 0x0C]);
        assert_eq!(answer(&layout_record(&layout)), expected, "{header:X?}");
        assert_eq!(answer(&length_record(header, 2)), expected, "{header:X?}");
    }
}

#[test]
fn ranges_of_a_selector_length() {
    for length in 0..=255 {
        let expected = if length <= 2 { 0 } else { 13 };
        assert_eq!(answer(&length_record([0x08, 0x6B], length)), expected);
        assert_eq!(answer(&length_record([0x18, 0], length)), expected);
    }
}

#[test]
fn ranges_of_a_layouts_selector() {
    for (key, expected) in [
        ([0x08, 0x6B, 0, 0, 0], 0),
        ([0x08, 0x6B, 0, 1, 0], 13),
        ([0x08, 0x6B, 0, 0, 1], 13),
        ([0x08, 0x6B, 1, 0x41, 0], 0),
        ([0x08, 0x6B, 1, 0, 0], 0),
        ([0x08, 0x6B, 1, 0x41, 1], 13),
        ([0x08, 0x6B, 2, 0x41, 0x0C], 0),
        ([0x08, 0x6B, 2, 0, 0xFF], 0),
        ([0x08, 0x6B, 2, 0, 0], 0),
        ([0x08, 0x6B, 3, 0, 0], 13),
        ([0x08, 0x6B, 0xFF, 0x41, 0x0C], 13),
    ] {
        let layout = Layout::of_key(key);
        assert_eq!(answer(&layout_record(&layout)), expected, "{key:X?}");
    }
}

#[test]
fn ranges_of_a_layouts_prns() {
    for count in 0..=17 {
        for place in 0..16 {
            let mut layout = Layout {
                count,
                ..bench_layout()
            };
            layout.prns = [0; 16];
            layout.prns[place] = 0x0100;
            let is_unused = place >= usize::from(count);
            let expected = if is_unused || count > 16 { 13 } else { 0 };
            assert_eq!(answer(&layout_record(&layout)), expected);
        }
    }
}

#[test]
fn keys_seen_before() {
    let mut slot = OWN_SLOT;
    slot.multiplier = 7;
    for record in [
        slot_record(&slot),
        prn_record(&Prn::new(OWN_PRN.prn, BCD, 4, 1)),
        layout_record(&bench_layout().with_prns(&[])),
        length_record([0x08, 0x6A], 0),
    ] {
        let again = [four_records(), record].concat();
        assert_eq!(answer(&again), refused_answer(14, four_records().len()));
    }
    let other_selector = Layout::of_key([0x08, 0x6B, 2, 0x41, 0]);
    let others = [
        layout_record(&other_selector),
        length_record([0x08, 0x6B], 2),
    ];
    assert_eq!(answer(&[four_records(), others.concat()].concat()), 0);
}

/// Cut by the end, or its count in the place of a selector byte that is unused.
#[test]
fn a_layout_of_the_old_form() {
    let old = old_layout_record(&bench_layout());
    assert_eq!(old[..8], [3, 8, 0x6B, 1, 0x41, 2, 0x10, 0x25]);
    assert_eq!((old.len(), answer(&old)), (38, 12));
    assert_eq!(answer(&[old, prn_record(&OWN_PRN)].concat()), 13);
}

#[test]
fn one_key_under_several_kinds() {
    let slot = Slot {
        number: 0x0105,
        ..OWN_SLOT
    };
    let records = [
        slot_record(&slot),
        prn_record(&Prn::new(0x0108, UNM, 8, 1)),
        layout_record(&Layout::of_key([1, 8, 1, 5, 0])),
        length_record([1, 8], 1),
    ];
    assert_eq!(answer(&records.concat()), 0);
}

#[test]
fn keys_in_the_sae_tables() {
    for row in PRNS {
        let prn = Prn::new(row.prn, BMM, 3, 4);
        assert_eq!(answer(&prn_record(&prn)), 15);
    }
    for row in SLOTS {
        assert_eq!(answer(&slot_record(row)), 15);
    }
    for (width, number) in [(6, 1), (8, 4), (8, 5)] {
        let states = Slot {
            form: SED,
            width,
            number,
            ..OWN_SLOT
        };
        assert_eq!(answer(&slot_record(&states)), 15);
    }
    let packet = Slot {
        form: PKT,
        width: 8,
        number: 1,
        ..OWN_SLOT
    };
    assert_eq!(answer(&slot_record(&packet)), 0);
    assert_eq!(
        answer(&layout_record(&Layout::of_key([0, 0x0B, 0, 0, 0]))),
        0
    );
    assert_eq!(answer(&length_record([0, 0x0B], 0)), 0);
}

#[test]
fn lowest_number_of_the_first_faulty_record() {
    let mut bad = OWN_SLOT;
    bad.divisor = 0;
    let bad_again = [slot_record(&OWN_SLOT), slot_record(&bad)].concat();
    assert_eq!(answer(&bad_again), refused_answer(13, length_of(SLOT)));
    let bad_sae = prn_record(&Prn::new(0x1025, 0, 8, 101));
    assert_eq!(answer(&bad_sae), 13);
    let sae = prn_record(&Prn::new(0x1025, UNM, 8, 101));
    let sae_first = [&sae[..], &slot_record(&bad), &[0]].concat();
    assert_eq!(answer(&sae_first), 15);
    let cut_sae = [&slot_record(&OWN_SLOT)[..], &sae[..sae.len() - 1]].concat();
    assert_eq!(answer(&cut_sae), refused_answer(12, length_of(SLOT)));
}
