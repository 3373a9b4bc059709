//! `compare frame|iso|supplement|report COUNT SEED` compares the archive with
//! the rules: `frame` reads and writes on J1850, `iso` on ISO 9141-2, a report is
//! of either. `compare promise COUNT SEED` tries what reports keep when records
//! are added to a supplement or taken away: COUNT pairs of supplements under the
//! premise, beside which those that break it are counted apart. `compare stream
//! COUNT SEED` feeds streams part after part and compares what is told with the
//! whole.

use peer::case::Call;
use peer::compare::{frame, promise, reports, stream, supplements, Outcome, Run};
use std::env;
use std::process::ExitCode;

extern "C" {
    fn rakhubole_j1850_read(
        first: *const u8,
        first_len: usize,
        response: *const u8,
        response_len: usize,
    ) -> u64;
    fn rakhubole_j1850_write(
        header: *const u8,
        header_len: usize,
        data: *const u8,
        data_len: usize,
        response: *const u8,
        response_len: usize,
        out: *mut u8,
        out_len: usize,
    ) -> u64;
    fn rakhubole_supplement_check(supplement: *const u8, len: usize) -> u64;
    fn rakhubole_j1850_report(
        supplement: *const u8,
        supplement_len: usize,
        first: *const u8,
        first_len: usize,
        response: *const u8,
        response_len: usize,
        out: *mut u8,
        out_len: usize,
    ) -> u64;
    fn rakhubole_iso9141_read(run: *const u8, run_len: usize) -> u64;
    fn rakhubole_iso9141_write(
        header: *const u8,
        header_len: usize,
        data: *const u8,
        data_len: usize,
        out: *mut u8,
        out_len: usize,
    ) -> u64;
    fn rakhubole_iso9141_report(
        supplement: *const u8,
        supplement_len: usize,
        run: *const u8,
        run_len: usize,
        out: *mut u8,
        out_len: usize,
    ) -> u64;
    fn rakhubole_stream_read(
        state: *const u8,
        part: *const u8,
        part_len: usize,
        out: *mut u8,
        out_len: usize,
    ) -> u64;
    fn rakhubole_stream_advance(state: *mut u8, part: *const u8, part_len: usize) -> u64;
    fn rakhubole_stream_end(state: *const u8) -> u64;
    fn rakhubole_stream_place(state: *const u8) -> u64;
}

fn archive(call: Call, runs: &[Run]) -> u64 {
    unsafe {
        match (call, runs) {
            (Call::Read, [a, b]) => rakhubole_j1850_read(a.0, a.1, b.0, b.1),
            (Call::Write, [a, b, c, out]) => {
                rakhubole_j1850_write(a.0, a.1, b.0, b.1, c.0, c.1, out.0, out.1)
            }
            (Call::Check, [a]) => rakhubole_supplement_check(a.0, a.1),
            (Call::Report, [a, b, c, out]) => {
                rakhubole_j1850_report(a.0, a.1, b.0, b.1, c.0, c.1, out.0, out.1)
            }
            (Call::IsoRead, [a]) => rakhubole_iso9141_read(a.0, a.1),
            (Call::IsoWrite, [a, b, out]) => {
                rakhubole_iso9141_write(a.0, a.1, b.0, b.1, out.0, out.1)
            }
            (Call::IsoReport, [a, b, out]) => {
                rakhubole_iso9141_report(a.0, a.1, b.0, b.1, out.0, out.1)
            }
            (Call::StreamRead, [state, part, out]) => {
                rakhubole_stream_read(state.0, part.0, part.1, out.0, out.1)
            }
            (Call::StreamAdvance, [state, part]) => {
                rakhubole_stream_advance(state.0, part.0, part.1)
            }
            (Call::StreamEnd, [state]) => rakhubole_stream_end(state.0),
            (Call::StreamPlace, [state]) => rakhubole_stream_place(state.0),
            _ => panic!("{} runs are not those of {}", runs.len(), call.name()),
        }
    }
}

fn main() -> ExitCode {
    let arguments: Vec<String> = env::args().skip(1).collect();
    match outcome(&arguments) {
        Some(outcome) => show(&outcome),
        None => {
            eprintln!("usage: compare frame|iso|supplement|report|promise|stream COUNT SEED");
            ExitCode::from(2)
        }
    }
}

fn outcome(arguments: &[String]) -> Option<Outcome> {
    let [layer, count, seed] = arguments else {
        return None;
    };
    let run = match layer.as_str() {
        "frame" => frame::run,
        "iso" => frame::run_iso,
        "supplement" => supplements,
        "report" => reports,
        "promise" => promise::run,
        "stream" => stream::run,
        _ => return None,
    };
    Some(run(&archive, count.parse().ok()?, seed.parse().ok()?))
}

fn show(outcome: &Outcome) -> ExitCode {
    let missing = outcome.missing();
    for difference in &outcome.differences {
        println!("{difference}");
    }
    for class in &missing {
        println!("no case of: {class}");
    }
    println!("{}", outcome.summary());
    if outcome.differences.is_empty() && missing.is_empty() {
        ExitCode::SUCCESS
    } else {
        ExitCode::FAILURE
    }
}
