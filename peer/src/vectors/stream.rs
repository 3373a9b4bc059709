//! The vector files of the stream: one line is one step, a state and the part
//! that is fed to it.

use super::{stream_cuts, stream_records, stream_states, Files, Format};
use crate::case::{Call, Case};
use crate::random::Random;
use crate::text::{hex, hex_answer, hex_field};

/// Bytes in the field of a part.
pub const MOST_PART: usize = 64;
/// The buffer whose start is lent as output, and what fills it before a call.
pub const BUFFER: usize = 16;
const FILLING: u8 = 0xA5;

const SEED: u64 = 60;

const FORMAT: Format = Format {
    case: case_line,
    expected: expected_line,
};

/// The files, a line of counts, and the classes of answer without a case.
pub fn make() -> (Files, String, Vec<String>) {
    let mut random = Random::new(SEED);
    let mut files = Files::default();
    for cases in [
        stream_records::cases,
        stream_states::cases,
        stream_cuts::cases,
    ] {
        for step in cases(&mut random) {
            if files.add(&FORMAT, &step, step.answer()) {
                let end = step.beside(Call::StreamEnd);
                files.counts.count_answer(&end, &end.answer());
            }
        }
    }
    let (counts, missing) = files.counted(&[Call::StreamRead, Call::StreamEnd]);
    let summary = format!("stream: {} cases; {counts}", files.cases());
    (files, summary, missing)
}

/// State, the part after its length, and the lent output's length.
fn case_line(case: &Case) -> String {
    assert!(
        case.out_length <= BUFFER,
        "lent output is the start of the buffer"
    );
    let (state, part) = (&case.inputs[0], &case.inputs[1]);
    let field = hex_field(part, MOST_PART);
    let (length, room) = (part.len(), case.out_length);
    format!("S {} {length:02X} {field} {room:02X}\n", hex(state))
}

/// The answer of read and the whole buffer, that of advance and the state after
/// it, and those of end and place for the state before it.
fn expected_line(case: &Case, answer: u64, written: &[u8]) -> String {
    let mut buffer = [FILLING; BUFFER];
    buffer[..written.len()].copy_from_slice(written);
    let (taken, after) = case.beside(Call::StreamAdvance).answer();
    let of_state = |call| hex_answer(case.beside(call).answer().0);
    let fields = [
        hex_answer(answer),
        hex(&buffer),
        hex_answer(taken),
        hex(&after),
        of_state(Call::StreamEnd),
        of_state(Call::StreamPlace),
    ];
    fields.join(" ") + "\n"
}
