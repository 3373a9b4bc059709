//! The vector files of the frame layer.

use super::{frame_counts, frame_iso_reads, frame_iso_writes, frame_reads, frame_writes};
use super::{Files, Format};
use crate::case::{Call, Case};
use crate::random::Random;
use crate::text::{hex, hex_answer, hex_field};

/// Bytes in a field of a line.
const FIELD: usize = 16;
/// The buffer whose start is lent as output, and what fills it before a call.
const BUFFER: usize = 32;
const FILLING: u8 = 0xA5;

const SEED: u64 = 1850;

const CALLS: [Call; 4] = [Call::Read, Call::Write, Call::IsoRead, Call::IsoWrite];

const FORMAT: Format = Format {
    case: case_line,
    expected: expected_line,
};

/// The files, a line of counts, and the classes of answer without a case.
pub fn make() -> (Files, String, Vec<String>) {
    let mut random = Random::new(SEED);
    let mut files = Files::default();
    for cases in [
        frame_reads::cases,
        frame_writes::cases,
        frame_iso_reads::cases,
        frame_iso_writes::cases,
        // the last, so that the random bytes of the others stay
        frame_counts::cases,
    ] {
        files.add_all(&FORMAT, &cases(&mut random));
    }
    let (counts, missing) = files.counted(&CALLS);
    let summary = format!("frame: {} cases; {counts}", files.cases());
    (files, summary, missing)
}

/// Small letters for ISO 9141-2.
fn letter(call: Call) -> &'static str {
    match call {
        Call::Read => "R",
        Call::Write => "W",
        Call::IsoRead => "r",
        Call::IsoWrite => "w",
        _ => panic!("{} is no frame's", call.name()),
    }
}

/// Letter, three fields each after its length, and the lent output's length.
fn case_line(case: &Case) -> String {
    assert!(
        case.out_length <= BUFFER,
        "lent output is the start of the buffer"
    );
    let mut line = String::from(letter(case.call));
    let mut fields = case.inputs.clone();
    fields.resize(3, Vec::new());
    for field in fields {
        line += &format!(" {:02X} {}", field.len(), hex_field(&field, FIELD));
    }
    line + &format!(" {:02X}\n", case.out_length)
}

/// The answer, and for a write the whole buffer after the call.
fn expected_line(case: &Case, answer: u64, written: &[u8]) -> String {
    if !case.call.has_output() {
        return hex_answer(answer) + "\n";
    }
    let mut buffer = [FILLING; BUFFER];
    buffer[..written.len()].copy_from_slice(written);
    format!("{} {}\n", hex_answer(answer), hex(&buffer))
}
