//! The vector files of the report.

use super::report_frames::MOST_LENT;
use super::{report_bench, report_frames, report_iso, report_items, report_places};
use super::{report_selectors, report_states, report_tables, Files, Format};
use crate::case::{Call, Case};
use crate::frame::bus::Bus;
use crate::random::Random;
use crate::text::{hex, hex_answer};

/// The buffer whose start is lent as output, and what fills it before a call.
const BUFFER: usize = MOST_LENT + BEHIND;
const FILLING: u8 = 0xA5;
/// How many bytes behind the lent output are shown.
const BEHIND: usize = 2;

const SEED: u64 = 21781;

const FORMAT: Format = Format {
    case: case_line,
    expected: expected_line,
};

/// The files, a line of counts, and the classes of answer without a case. The
/// bench cases, the easy errors, the extremes of Numbers and the selectors come
/// first, each with its name and its answer, written by hand and not computed by
/// the rules; then come the cases that the rules answer: those of J1850, such of
/// them as ISO 9141-2 has too, and its own.
pub fn make() -> (Files, String, Vec<String>) {
    let mut files = Files::default();
    for bench in report_bench::all() {
        let is_new = files.add(&FORMAT, &bench.case, (bench.number, bench.rows));
        assert!(is_new, "{} is there already", bench.name);
        files.name_last(&bench.name);
    }
    let bench = files.cases();
    let mut random = Random::new(SEED);
    let mut messages = Vec::new();
    for cases in [
        report_tables::cases,
        report_states::cases,
        report_items::cases,
        report_places::cases,
        report_frames::cases,
        report_selectors::cases,
    ] {
        let cases = cases(&mut random);
        files.add_all(&FORMAT, &cases);
        messages.extend(cases.iter().filter_map(report_iso::as_message));
    }
    messages.extend(report_iso::cases(&mut random));
    files.add_all(&FORMAT, &messages);
    let (counts, missing) = files.counted(&[Call::Report, Call::IsoReport]);
    let all = files.cases();
    let summary = format!("report: {all} cases, {bench} of them bench cases; {counts}");
    (files, summary, missing)
}

/// The bus, three runs each after its length, and the lent output's length; the
/// response of ISO 9141-2 is empty.
fn case_line(case: &Case) -> String {
    assert!(
        case.out_length <= MOST_LENT,
        "lent output is the start of the buffer"
    );
    let mut line = String::from(match case.call.bus() {
        Bus::J1850 => "J ",
        Bus::Iso9141 => "I ",
    });
    let mut runs = case.inputs.clone();
    runs.resize(3, Vec::new());
    for run in &runs {
        line += &format!("{:04X} {} ", run.len(), hex(run));
    }
    line + &format!("{:04X}\n", case.out_length)
}

/// The answer, and the buffer to a little behind the lent output.
fn expected_line(case: &Case, answer: u64, written: &[u8]) -> String {
    let mut buffer = [FILLING; BUFFER];
    buffer[..written.len()].copy_from_slice(written);
    let shown = hex(&buffer[..case.out_length + BEHIND]);
    format!("{} {shown}\n", hex_answer(answer))
}
