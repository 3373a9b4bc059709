//! Runs whose lengths do not fit 32 bits, lent once in each place.

use super::{Archive, Outcome, Run};
use crate::case::Call;
use crate::frame::bus::Bus;
use crate::frame::check_byte::checked;
use crate::frame::iso::summed;
use crate::sae::form::UNM;
use crate::sae::Prn;
use crate::stream::draft::frame_of;
use crate::stream::state::State;
use crate::supplement::draft::prn_record;
use std::alloc::{alloc_zeroed, Layout};

/// A length cut to 32 bits loses this much.
const EXCESS: usize = 1 << 32;

/// The bytes of an output that is not long itself.
const SHORT_OUTPUT: usize = 32;

impl Outcome {
    /// No call is made where so much memory cannot be had.
    pub fn with_long_runs(mut self, archive: Archive, calls: &[Call]) -> Outcome {
        self.long_runs = Some(0);
        if let Some(mut block) = zeroed(EXCESS + 16) {
            for call in calls {
                self.lend_long(archive, *call, &mut block);
            }
        }
        self
    }

    /// Each run in its turn, then the output. Cut to 32 bits, a long run would be
    /// sound, and a record in a part of a stream would not be whole.
    fn lend_long(&mut self, archive: Archive, call: Call, block: &mut [u8]) {
        let short = Short::of(call);
        block[..short.sound.len()].copy_from_slice(&short.sound);
        for inputs in short.beside_long(call, block) {
            self.compare_long(archive, call, &inputs, &mut [0; SHORT_OUTPUT]);
        }
        if call.has_output() {
            let out = &mut block[..EXCESS + 1];
            self.compare_long(archive, call, &short.alone(call), out);
        }
    }

    /// Compares the number and what is written. The runs are not copied.
    fn compare_long(&mut self, archive: Archive, call: Call, inputs: &[&[u8]], out: &mut [u8]) {
        let (expected, written) = call.answer(inputs, out.len());
        let of_input = |run: &&[u8]| (run.as_ptr().cast_mut(), run.len());
        let mut runs: Vec<Run> = inputs.iter().map(of_input).collect();
        match call.written().map(|place| inputs.get(place)) {
            Some(Some(state)) => {
                out[..state.len()].copy_from_slice(state);
                runs[0].0 = out.as_mut_ptr();
            }
            Some(None) => runs.push((out.as_mut_ptr(), out.len())),
            None => {}
        }
        let given = archive(call, &runs);
        self.long_runs = self.long_runs.map(|calls| calls + 1);
        if given != expected || out[..written.len()] != written {
            let lengths: Vec<usize> = runs.iter().map(|run| run.1).collect();
            let text = format!("{} of lengths {lengths:?}", call.name());
            let answers = format!("expected {expected:016X}, archive {given:016X}");
            self.differences.push(format!("{text}: {answers}"));
        }
    }
}

/// The runs that are not long. They are vectors, so that a call that writes to
/// one does not end the program.
struct Short {
    /// A record, frame or message; a long run begins with it.
    sound: Vec<u8>,
    kind_1: Vec<u8>,
    kind_2: Vec<u8>,
    response: Vec<u8>,
    data: Vec<u8>,
    state: Vec<u8>,
}

impl Short {
    fn of(call: Call) -> Short {
        Short {
            sound: match (call, call.bus()) {
                (Call::Check, _) => prn_record(&Prn::new(0x1234, UNM, 8, 101)),
                (Call::StreamRead | Call::StreamAdvance, _) => frame_of(&[8], &[9]),
                (_, Bus::J1850) => checked(&[0x12]),
                (_, Bus::Iso9141) => summed(&[0x68, 0x6A, 0xF1]),
            },
            kind_1: vec![0x11],
            kind_2: vec![0x12],
            response: vec![9],
            data: vec![1, 2],
            state: State::default().bytes(),
        }
    }

    /// The inputs of the call with each run long in its turn.
    fn beside_long<'a>(&'a self, call: Call, block: &'a [u8]) -> Vec<Vec<&'a [u8]>> {
        let long = |length: usize| &block[..EXCESS + length];
        let (sound, response) = (&self.sound[..], &self.response[..]);
        let header = &sound[..sound.len() - 1];
        match call {
            Call::Read => vec![vec![long(2), response], vec![sound, long(1)]],
            Call::Write => vec![
                vec![long(1), &[], response],
                vec![&self.kind_2, long(1), response],
                vec![&self.kind_2, &[], long(1)],
                vec![&self.kind_1, &[], long(1)],
            ],
            Call::Check => vec![vec![long(0)], vec![long(sound.len())]],
            Call::Report => vec![
                vec![long(0), sound, response],
                vec![&[], long(2), response],
                vec![&[], sound, long(1)],
            ],
            Call::IsoRead => vec![vec![long(4)]],
            Call::IsoWrite => vec![vec![long(3), &[]], vec![header, long(1)]],
            Call::IsoReport => vec![vec![long(0), sound], vec![&[], long(4)]],
            Call::StreamRead | Call::StreamAdvance => {
                vec![vec![&self.state, long(0)], vec![&self.state, long(14)]]
            }
            Call::StreamEnd | Call::StreamPlace => vec![],
        }
    }

    /// The inputs of a call with an output, none of them long.
    fn alone(&self, call: Call) -> Vec<&[u8]> {
        let header = &self.sound[..self.sound.len() - 1];
        match call {
            Call::Write => vec![&self.kind_2, &self.data, &self.response],
            Call::Report => vec![&[], &self.sound, &self.response],
            Call::IsoWrite => vec![header, &self.data],
            Call::IsoReport => vec![&[], &self.sound],
            Call::StreamRead => vec![&self.state, &self.sound],
            _ => panic!("{} has no output", call.name()),
        }
    }
}

/// Zeroed memory, of which only what is touched is used.
fn zeroed(length: usize) -> Option<Vec<u8>> {
    let layout = Layout::array::<u8>(length).ok()?;
    let pointer = unsafe { alloc_zeroed(layout) };
    if pointer.is_null() {
        return None;
    }
    Some(unsafe { Vec::from_raw_parts(pointer, length, length) })
}
