//! The rules in place of the archive, right and bent: what is bent is found.

use super::*;
use crate::frame::iso::is_first_byte_wrong;
use crate::frame::{check_byte, MOST_BYTES};
use crate::report::line::{self, Line, LONGEST};
use crate::report::number::Number;
use crate::report::rows::{number, parse};
use crate::supplement::draft::{Bytes, SECOND_SELECTOR_PLACE};
use crate::supplement::record::{length_of, LAYOUT, SELECTOR_LENGTH};
use std::slice;

pub(super) type Answer = (u64, Vec<u8>);

/// The answer that a bent rule gives, from the inputs and the right one.
pub(super) type Bend = fn(Call, &[&[u8]], Answer) -> Answer;

fn right(_: Call, _: &[&[u8]], answer: Answer) -> Answer {
    answer
}

fn bytes<'a>(run: &Run) -> &'a [u8] {
    match run {
        (_, 0) => &[],
        (start, length) => unsafe { slice::from_raw_parts(*start, *length) },
    }
}

fn bent(bend: Bend) -> impl Fn(Call, &[Run]) -> u64 {
    move |call, runs| {
        let inputs = runs.len() - usize::from(call.has_output());
        let (inputs, out) = runs.split_at(inputs);
        let inputs: Vec<&[u8]> = inputs.iter().map(bytes).collect();
        let room = out.first().map_or(0, |out| out.1);
        let (number, written) = bend(call, &inputs, call.answer(&inputs, room));
        let lent = call.written().map(|place| runs[place].0);
        if let Some(start) = lent.filter(|start| !start.is_null()) {
            unsafe { start.copy_from(written.as_ptr(), written.len()) };
        }
        number
    }
}

pub(super) type Mode = fn(Archive, u64, u64) -> Outcome;

pub(super) fn outcome(mode: Mode, bend: Bend) -> Outcome {
    mode(&bent(bend), 4000, 1)
}

fn is_found(mode: Mode, bend: Bend) -> bool {
    !outcome(mode, bend).differences.is_empty()
}

pub(super) fn assert_each_found(mode: Mode, bends: &[Bend]) {
    for (place, bend) in bends.iter().enumerate() {
        assert!(is_found(mode, *bend), "{place}");
    }
}

#[test]
fn the_rules_themselves_do_not_differ() {
    let modes: [Mode; 2] = [reports, promise::run];
    for mode in modes {
        assert_eq!(outcome(mode, right).differences, [""; 0]);
    }
    for mode in [frame::run, frame::run_iso, stream::run] {
        let outcome = outcome(mode, right);
        assert_eq!(outcome.differences, [""; 0]);
        assert_eq!(outcome.missing(), [""; 0]);
    }
}

/// An accepted reading of a message of this length.
fn accepted(run: &[u8]) -> Answer {
    (0x0300 | (run.len() as u64 - 4) << 16, Vec::new())
}

#[test]
fn bent_readers_of_iso() {
    let bends: [Bend; 6] = [
        |call, inputs, answer| match (call, answer.0) {
            (Call::IsoRead, 9) => accepted(inputs[0]),
            _ => answer,
        },
        |call, inputs, answer| match (call, answer.0) {
            (Call::IsoRead, 3) if is_first_byte_wrong(inputs[0][0]) => (9, Vec::new()),
            _ => answer,
        },
        |call, inputs, answer| match (call, answer.0) {
            (Call::IsoRead, 3) if !check_byte::is_wrong(inputs[0]) => accepted(inputs[0]),
            _ => answer,
        },
        |call, inputs, answer| match (call, answer.0) {
            (Call::IsoRead, 1) if inputs[0].len() == MOST_BYTES + 1 => (3, Vec::new()),
            _ => answer,
        },
        |call, inputs, answer| match (call, answer.0) {
            (Call::IsoRead, 2) if inputs[0].len() == 3 => (3, Vec::new()),
            _ => answer,
        },
        |call, _, answer| match (call, answer.0) {
            (Call::IsoRead, number @ 1..=9) => (number | 0x100, Vec::new()),
            _ => answer,
        },
    ];
    assert_each_found(frame::run_iso, &bends);
}

#[test]
fn bent_writers_of_iso() {
    let bends: [Bend; 4] = [
        |call, inputs, answer| match (call, answer.0) {
            (Call::IsoWrite, 9) if inputs[1].len() > 8 => (1, Vec::new()),
            _ => answer,
        },
        |call, _, (number, mut written)| {
            if call == Call::IsoWrite && !written.is_empty() {
                written.push(0x55);
            }
            (number, written)
        },
        |call, _, answer| match (call, answer.0) {
            (Call::IsoWrite, 8) => (8, vec![0x55, 0xAA]),
            _ => answer,
        },
        |call, inputs, answer| match (call, &answer.1[..]) {
            (Call::IsoWrite, [_, ..]) => {
                let parts = [inputs[0], inputs[1]].concat();
                (answer.0, check_byte::checked(&parts))
            }
            _ => answer,
        },
    ];
    assert_each_found(frame::run_iso, &bends);
}

#[test]
fn bent_reports_of_iso() {
    // a layout is found by the priority too
    let by_priority: Bend = |call, inputs, answer| match (call, &answer.1[..]) {
        (Call::IsoReport, [_, ..]) if inputs[1][0] > 0x1F => {
            call.answer(&[&[], inputs[1]], LONGEST)
        }
        _ => answer,
    };
    assert!(is_found(reports, by_priority));
    // a large supplement hides what a small one shows
    let by_size: Bend = |call, inputs, answer| match (call, &answer.1[..]) {
        (Call::IsoReport, [_, ..]) if inputs[0].len() > 80 => {
            call.answer(&[&[], inputs[1]], LONGEST)
        }
        _ => answer,
    };
    assert!(is_found(promise::run, by_size));
}

/// The supplement with its records changed, or without them.
fn with_records(supplement: &[u8], change: fn(Bytes) -> Option<Bytes>) -> Bytes {
    let mut changed = Vec::new();
    let mut rest = supplement;
    while let Some(kind) = rest.first() {
        let (record, after) = rest.split_at(length_of(*kind));
        changed.extend(change(record.to_vec()).unwrap_or_default());
        rest = after;
    }
    changed
}

/// The accepted report of the frame under another supplement, if that is accepted.
fn under(
    change: fn(Bytes) -> Option<Bytes>,
    call: Call,
    inputs: &[&[u8]],
    answer: Answer,
) -> Answer {
    if !call.is(Call::Report) || answer.1.is_empty() {
        return answer;
    }
    let changed = with_records(inputs[0], change);
    let mut inputs = inputs.to_vec();
    inputs[0] = &changed;
    match call.answer(&inputs, LONGEST) {
        (number, _) if number & 0xFF != 0 => answer,
        bent => bent,
    }
}

const WITHOUT_LENGTHS: fn(Bytes) -> Option<Bytes> =
    |record| (record[0] != SELECTOR_LENGTH).then_some(record);

#[test]
fn bent_selector_lengths() {
    let bends: [Bend; 3] = [
        |call, inputs, answer| under(WITHOUT_LENGTHS, call, inputs, answer),
        // length 0 is taken for 1
        |call, inputs, answer| {
            let at_least_1 = |mut record: Bytes| {
                if record[0] == SELECTOR_LENGTH {
                    record[3] = record[3].max(1);
                }
                Some(record)
            };
            under(at_least_1, call, inputs, answer)
        },
        // a layout of two bytes is found by its first alone
        |call, inputs, answer| {
            let first_alone = |mut record: Bytes| {
                if record[0] == LAYOUT && record[3] == 2 {
                    (record[3], record[SECOND_SELECTOR_PLACE]) = (1, 0);
                }
                Some(record)
            };
            under(first_alone, call, inputs, answer)
        },
    ];
    assert_each_found(reports, &bends);
}

/// Lengths that are heeded in supplements of odd length alone.
#[test]
fn selector_lengths_that_records_change() {
    let bend: Bend = |call, inputs, answer| match inputs[0].len() % 2 {
        0 => under(WITHOUT_LENGTHS, call, inputs, answer),
        _ => answer,
    };
    assert!(is_found(promise::run, bend));
}

#[test]
fn pairs_that_break_the_premise_are_not_judged() {
    let outcome = outcome(promise::run, right);
    let broken = outcome.counts.of("premise broken");
    let changed = outcome.counts.of("premise broken, a shown line changed");
    assert!(broken > changed && changed > 0, "{broken} {changed}");
    assert_eq!((outcome.cases, outcome.differences.len()), (4000, 0));
}

/// The report with its first Number bent.
fn with_bent_number(answer: Answer, bend: fn(Number) -> Number) -> Answer {
    let Some(row) = parse(&answer.1).and_then(|rows| rows.items.first().copied()) else {
        return answer;
    };
    let Some(number) = number(row) else {
        return answer;
    };
    let bent = line::row(&Line::Number(bend(number)));
    (answer.0, [&bent, &answer.1[bent.len()..]].concat())
}

#[test]
fn bent_fractions() {
    let bends: [Bend; 5] = [
        // of the low 32 bits alone, without a sign and with one
        |_, _, answer| {
            with_bent_number(answer, |number| Number {
                above: i64::from(number.above as u32),
                ..number
            })
        },
        |_, _, answer| {
            with_bent_number(answer, |number| Number {
                above: i64::from(number.above as i32),
                ..number
            })
        },
        |_, _, answer| {
            with_bent_number(answer, |number| Number {
                above: number.above.abs(),
                ..number
            })
        },
        // the double is right, the fraction reduced
        |_, _, answer| {
            with_bent_number(answer, |number| match number.above % 3 {
                0 if number.divisor == 3 => Number::of(number.above / 3, 1),
                _ => number,
            })
        },
        |_, _, answer| {
            with_bent_number(answer, |number| match number.above {
                0 => Number::of(0, 1),
                _ => number,
            })
        },
    ];
    assert_each_found(reports, &bends);
}

/// With many records a fraction is another, of the same double.
#[test]
fn a_fraction_that_records_change() {
    let bend: Bend = |_, inputs, answer| {
        if inputs[0].len() < 100 {
            return answer;
        }
        with_bent_number(answer, |number| match number.divisor {
            divisor @ ..0x8000 => Number::of(2 * number.above, 2 * divisor),
            _ => number,
        })
    };
    assert!(is_found(promise::run, bend));
}

#[test]
fn bent_counts_of_responses() {
    let bends: [Bend; 7] = [
        // the withdrawn number
        |call, _, answer| match (call, answer.0) {
            (Call::Read, 50..=53) => (5, Vec::new()),
            _ => answer,
        },
        |call, _, answer| match (call, answer.0) {
            (Call::Write, 50..=53) => (5, Vec::new()),
            _ => answer,
        },
        // 52 from the writer, and 6 for the check byte of no data
        |call, inputs, answer| match (call, answer.0, inputs[0]) {
            (Call::Write, 51, [0x13, ..]) => (52, Vec::new()),
            _ => answer,
        },
        |call, inputs, answer| match (call, answer.0, inputs[1]) {
            (Call::Read, 52, [0]) => (6, Vec::new()),
            _ => answer,
        },
        // the order beside 1
        |call, inputs, answer| match (call, answer.0, inputs) {
            (Call::Read, 1, [[0x91, _], [_, ..]]) => (53, Vec::new()),
            _ => answer,
        },
        |call, inputs, answer| match (call, answer.0, inputs) {
            (Call::Write, 53, [[0x91], data, _]) if data.len() > 10 => (1, Vec::new()),
            _ => answer,
        },
        // one first byte alone
        |call, inputs, answer| match (call, answer.0, inputs) {
            (Call::Read, 53, [[0xF4, _, _], [_, _]]) => (0x0002_0101_0100, Vec::new()),
            _ => answer,
        },
    ];
    assert_each_found(frame::run, &bends);
}

#[test]
fn a_changed_byte_that_j1850_would_take() {
    let bend: Bend = |call, inputs, answer| match (call, answer.0, inputs) {
        (Call::Read, 3, [[0x48, _, _, 0x77], []]) => (0x0300, Vec::new()),
        _ => answer,
    };
    let found = outcome(frame::run, bend).differences;
    assert!(found.iter().all(|text| text.contains("77] response []")));
    assert!(!found.is_empty());
}
