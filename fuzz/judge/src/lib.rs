//! The calls of the C interface as the second program answers them.

use peer::case::Call;
use peer::frame::check_byte::check_byte;
use peer::frame::iso;
use peer::stream::state;
use std::slice;

/// A lent run; NULL with length 0 is empty.
unsafe fn run<'a>(start: *const u8, length: usize) -> &'a [u8] {
    if length == 0 {
        &[]
    } else {
        slice::from_raw_parts(start, length)
    }
}

/// The answer of a call without an output.
fn answer(call: Call, inputs: &[&[u8]]) -> u64 {
    call.answer(inputs, 0).0
}

/// The answer of a call that puts what it writes at the start of the lent output,
/// or of the state.
unsafe fn put_answer(call: Call, inputs: &[&[u8]], out: *mut u8, out_length: usize) -> u64 {
    let (answer, written) = call.answer(inputs, out_length);
    if !written.is_empty() {
        slice::from_raw_parts_mut(out, written.len()).copy_from_slice(&written);
    }
    answer
}

/// # Safety
/// Each pointer is that of a run of the length beside it, here and below.
#[no_mangle]
pub unsafe extern "C" fn judge_read(
    first: *const u8,
    first_length: usize,
    response: *const u8,
    response_length: usize,
) -> u64 {
    let inputs = [run(first, first_length), run(response, response_length)];
    answer(Call::Read, &inputs)
}

/// # Safety
/// As above; the output overlaps no input.
#[no_mangle]
pub unsafe extern "C" fn judge_write(
    header: *const u8,
    header_length: usize,
    data: *const u8,
    data_length: usize,
    response: *const u8,
    response_length: usize,
    out: *mut u8,
    out_length: usize,
) -> u64 {
    let (header, data) = (run(header, header_length), run(data, data_length));
    let inputs = [header, data, run(response, response_length)];
    put_answer(Call::Write, &inputs, out, out_length)
}

/// # Safety
/// As above.
#[no_mangle]
pub unsafe extern "C" fn judge_check(supplement: *const u8, length: usize) -> u64 {
    answer(Call::Check, &[run(supplement, length)])
}

/// # Safety
/// As above; the output overlaps no input.
#[no_mangle]
pub unsafe extern "C" fn judge_report(
    supplement: *const u8,
    supplement_length: usize,
    first: *const u8,
    first_length: usize,
    response: *const u8,
    response_length: usize,
    out: *mut u8,
    out_length: usize,
) -> u64 {
    let (first, response) = (run(first, first_length), run(response, response_length));
    let inputs = [run(supplement, supplement_length), first, response];
    put_answer(Call::Report, &inputs, out, out_length)
}

/// # Safety
/// As above.
#[no_mangle]
pub unsafe extern "C" fn judge_iso_read(start: *const u8, length: usize) -> u64 {
    answer(Call::IsoRead, &[run(start, length)])
}

/// # Safety
/// As above; the output overlaps no input.
#[no_mangle]
pub unsafe extern "C" fn judge_iso_write(
    header: *const u8,
    header_length: usize,
    data: *const u8,
    data_length: usize,
    out: *mut u8,
    out_length: usize,
) -> u64 {
    let inputs = [run(header, header_length), run(data, data_length)];
    put_answer(Call::IsoWrite, &inputs, out, out_length)
}

/// # Safety
/// As above; the output overlaps no input.
#[no_mangle]
pub unsafe extern "C" fn judge_iso_report(
    supplement: *const u8,
    supplement_length: usize,
    message: *const u8,
    message_length: usize,
    out: *mut u8,
    out_length: usize,
) -> u64 {
    let message = run(message, message_length);
    let inputs = [run(supplement, supplement_length), message];
    put_answer(Call::IsoReport, &inputs, out, out_length)
}

/// # Safety
/// As above, and the state is `state::LENGTH` bytes, here and below; the output
/// overlaps no input.
#[no_mangle]
pub unsafe extern "C" fn judge_stream_read(
    state: *const u8,
    part: *const u8,
    part_length: usize,
    out: *mut u8,
    out_length: usize,
) -> u64 {
    let inputs = [run(state, state::LENGTH), run(part, part_length)];
    put_answer(Call::StreamRead, &inputs, out, out_length)
}

/// # Safety
/// As above; the state does not overlap the part.
#[no_mangle]
pub unsafe extern "C" fn judge_stream_advance(
    state: *mut u8,
    part: *const u8,
    part_length: usize,
) -> u64 {
    let before = run(state, state::LENGTH).to_vec();
    let inputs = [&before[..], run(part, part_length)];
    put_answer(Call::StreamAdvance, &inputs, state, state::LENGTH)
}

/// # Safety
/// As above.
#[no_mangle]
pub unsafe extern "C" fn judge_stream_end(state: *const u8) -> u64 {
    answer(Call::StreamEnd, &[run(state, state::LENGTH)])
}

/// # Safety
/// As above.
#[no_mangle]
pub unsafe extern "C" fn judge_stream_place(state: *const u8) -> u64 {
    answer(Call::StreamPlace, &[run(state, state::LENGTH)])
}

/// The check byte of a run.
///
/// # Safety
/// As above.
#[no_mangle]
pub unsafe extern "C" fn judge_check_byte(start: *const u8, length: usize) -> u8 {
    check_byte(run(start, length))
}

/// The check byte of a message of ISO 9141-2, sent after these bytes.
///
/// # Safety
/// As above.
#[no_mangle]
pub unsafe extern "C" fn judge_sum(start: *const u8, length: usize) -> u8 {
    iso::sum(run(start, length))
}
