//! The calls of the C interface, and one call with its arguments.

use crate::frame::bus::{Bus, Runs};
use crate::frame::draft::Draft;
use crate::frame::{iso, reader, writer};
use crate::report::line::LONGEST;
use crate::stream::step;
use crate::text::hex;
use crate::{report, supplement};
use std::fmt;

/// Those without a bus in their name are of J1850, but for the supplement's and
/// the stream's.
#[derive(Clone, Copy, Debug, PartialEq)]
pub enum Call {
    Read,
    Write,
    Check,
    Report,
    IsoRead,
    IsoWrite,
    IsoReport,
    StreamRead,
    StreamAdvance,
    StreamEnd,
    StreamPlace,
}

impl Call {
    pub fn name(self) -> &'static str {
        match self {
            Call::Read => "read",
            Call::Write => "write",
            Call::Check => "supplement",
            Call::Report => "report",
            Call::IsoRead => "ISO read",
            Call::IsoWrite => "ISO write",
            Call::IsoReport => "ISO report",
            Call::StreamRead => "stream read",
            Call::StreamAdvance => "stream advance",
            Call::StreamEnd => "stream end",
            Call::StreamPlace => "stream place",
        }
    }

    /// The call that does the same on this bus.
    pub fn on(self, bus: Bus) -> Call {
        match (self, bus) {
            (Call::Read, Bus::Iso9141) => Call::IsoRead,
            (Call::Write, Bus::Iso9141) => Call::IsoWrite,
            (Call::Report, Bus::Iso9141) => Call::IsoReport,
            (call, _) => call,
        }
    }

    /// A supplement's test and the stream count with J1850.
    pub fn bus(self) -> Bus {
        match self {
            Call::IsoRead | Call::IsoWrite | Call::IsoReport => Bus::Iso9141,
            _ => Bus::J1850,
        }
    }

    /// It is this call, on one bus or the other.
    pub fn is(self, call: Call) -> bool {
        self == call.on(self.bus())
    }

    /// The byte runs lent to it, in its order of arguments.
    pub fn runs(self) -> &'static [&'static str] {
        match self {
            Call::Read => &["first", "response"],
            Call::Write => &["header", "data", "response", "output"],
            Call::Check => &["supplement"],
            Call::Report => &["supplement", "first", "response", "output"],
            Call::IsoRead => &["run"],
            Call::IsoWrite => &["header", "data", "output"],
            Call::IsoReport => &["supplement", "run", "output"],
            Call::StreamRead => &["state", "part", "output"],
            Call::StreamAdvance => &["state", "part"],
            Call::StreamEnd | Call::StreamPlace => &["state"],
        }
    }

    /// The last run is an output.
    pub fn has_output(self) -> bool {
        self.runs().last() == Some(&"output")
    }

    /// The place of the run that it writes to: the output, or the state.
    pub fn written(self) -> Option<usize> {
        match self {
            Call::StreamAdvance => Some(0),
            _ => self.has_output().then(|| self.runs().len() - 1),
        }
    }

    /// The number returned, and the bytes put at the start of the run that it
    /// writes to.
    pub fn answer(self, inputs: &[&[u8]], out_length: usize) -> (u64, Vec<u8>) {
        match (self, inputs) {
            (Call::Read, [first, response]) => (reader::answer(first, response), Vec::new()),
            (Call::Write, [header, data, response]) => writer::answer(&writer::Request {
                header,
                data,
                response,
                out_length,
            }),
            (Call::Check, [supplement]) => (supplement::answer(supplement), Vec::new()),
            (Call::Report, [supplement, first, response]) => report::answer(&report::Request {
                supplement,
                first,
                response,
                out_length,
            }),
            (Call::IsoRead, [run]) => (iso::answer_to_read(run), Vec::new()),
            (Call::IsoWrite, [header, data]) => iso::answer_to_write(&iso::Request {
                header,
                data,
                out_length,
            }),
            (Call::IsoReport, [supplement, run]) => report::iso_answer(supplement, run, out_length),
            (Call::StreamRead, [state, part]) => step::answer_to_read(state, part, out_length),
            (Call::StreamAdvance, [state, part]) => step::answer_to_advance(state, part),
            (Call::StreamEnd, [state]) => (step::answer_to_end(state), Vec::new()),
            (Call::StreamPlace, [state]) => (step::answer_to_place(state), Vec::new()),
            _ => panic!("{} runs are not those of {}", inputs.len(), self.name()),
        }
    }
}

#[derive(Clone, Debug, PartialEq)]
pub struct Case {
    pub call: Call,
    /// The runs without the output.
    pub inputs: Vec<Vec<u8>>,
    /// 0 for a call without an output.
    pub out_length: usize,
}

impl Case {
    pub fn read(runs: Runs) -> Case {
        Case::read_on(Bus::J1850, runs)
    }

    pub fn write(draft: Draft, out_length: usize) -> Case {
        Case::write_on(Bus::J1850, draft, out_length)
    }

    pub fn check(supplement: Vec<u8>) -> Case {
        Case {
            call: Call::Check,
            inputs: vec![supplement],
            out_length: 0,
        }
    }

    /// Lent as much as the longest report needs.
    pub fn report(supplement: Vec<u8>, runs: Runs) -> Case {
        Case::report_on(Bus::J1850, supplement, runs)
    }

    pub fn stream_read(state: Vec<u8>, part: Vec<u8>, out_length: usize) -> Case {
        Case {
            call: Call::StreamRead,
            inputs: vec![state, part],
            out_length,
        }
    }

    /// Another call of the stream with the same state and part.
    pub fn beside(&self, call: Call) -> Case {
        Case {
            call,
            inputs: self.inputs[..call.runs().len()].to_vec(),
            out_length: 0,
        }
    }

    pub fn read_on(bus: Bus, (first, response): Runs) -> Case {
        Case::of(Call::Read.on(bus), vec![first], response, 0)
    }

    pub fn write_on(bus: Bus, draft: Draft, out_length: usize) -> Case {
        let inputs = vec![draft.header, draft.data];
        Case::of(Call::Write.on(bus), inputs, draft.response, out_length)
    }

    /// Lent as much as the longest report needs.
    pub fn report_on(bus: Bus, supplement: Vec<u8>, (first, response): Runs) -> Case {
        let inputs = vec![supplement, first];
        Case::of(Call::Report.on(bus), inputs, response, LONGEST)
    }

    /// The response comes last on the bus that has one.
    fn of(call: Call, mut inputs: Vec<Vec<u8>>, response: Vec<u8>, out_length: usize) -> Case {
        match call.bus() {
            Bus::J1850 => inputs.push(response),
            Bus::Iso9141 => assert!(response.is_empty(), "ISO 9141-2 has no response"),
        }
        Case {
            call,
            inputs,
            out_length,
        }
    }

    pub fn lent(mut self, out_length: usize) -> Case {
        self.out_length = out_length;
        self
    }

    pub fn answer(&self) -> (u64, Vec<u8>) {
        let inputs: Vec<&[u8]> = self.inputs.iter().map(Vec::as_slice).collect();
        self.call.answer(&inputs, self.out_length)
    }

    /// The length of a report's rows, if supplement and frame are accepted.
    pub fn need(&self) -> Option<usize> {
        let (answer, rows) = self.clone().lent(LONGEST).answer();
        (answer & 0xFF == 0).then_some(rows.len())
    }
}

impl fmt::Display for Case {
    fn fmt(&self, f: &mut fmt::Formatter) -> fmt::Result {
        write!(f, "{}", self.call.name())?;
        for (name, run) in self.call.runs().iter().zip(&self.inputs) {
            write!(f, " {name} [{}]", hex(run))?;
        }
        if self.call.has_output() {
            write!(f, " lent {}", self.out_length)?;
        }
        Ok(())
    }
}
