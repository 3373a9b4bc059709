//! A stream handed to the archive part after part, and what its calls tell.

use super::{call, difference, lend, stream_random, Archive, Lent, NULL_RUNS};
use crate::case::{Call, Case};
use crate::counts::{self, Counts};
use crate::frame::refusal::OUTPUT_SHORT;
use crate::frame::MOST_BYTES;
use crate::random::Random;
use crate::stream::record::FRAME_LENGTH;
use crate::stream::refusal::{CUT, KIND_UNKNOWN, RECORD_WRONG};
use crate::stream::state::{self, State};
use crate::stream::{Event, Told};
use crate::text::hex;

const EMPTY: &str = "empty part";
const AFTER_60: &str = "bytes after 60";
const OVER_16_BITS: &str = "part over 16 bits";
const PAST_TOP: &str = "place past 2^64";

/// What is counted beside the answers.
pub const CLASSES: [&str; 4] = [EMPTY, AFTER_60, OVER_16_BITS, PAST_TOP];

pub struct Walk<'a> {
    archive: Archive<'a>,
    /// The bytes before the stream.
    before: u64,
    stream: &'a [u8],
    /// How many bytes of the stream are taken.
    taken: usize,
    state: Vec<u8>,
    told: Told,
    counts: &'a mut Counts,
    random: &'a mut Random,
}

impl<'a> Walk<'a> {
    pub fn new(
        archive: Archive<'a>,
        before: u64,
        stream: &'a [u8],
        counts: &'a mut Counts,
        random: &'a mut Random,
    ) -> Walk<'a> {
        Walk {
            archive,
            before,
            stream,
            taken: 0,
            state: State::at(before).bytes(),
            told: Told::default(),
            counts,
            random,
        }
    }

    /// What the calls tell of the stream cut at these places, or what they may
    /// not do. Bytes that a call does not take are fed again.
    pub fn told(mut self, cuts: &[usize]) -> Result<Told, String> {
        for end in cuts.iter().copied().chain([self.stream.len()]) {
            while self.next(end)? {}
        }
        let end = self.of_state(Call::StreamEnd)?;
        let class = counts::class(Call::StreamEnd, end);
        self.counts.count(&class);
        if end == u64::from(CUT) {
            self.told.cut = Some(self.of_state(Call::StreamPlace)?);
        } else if end != 0 {
            return Err(format!("end {end:016X}"));
        }
        if self.place_taken() < self.before {
            self.counts.count(PAST_TOP);
        }
        Ok(self.told)
    }

    /// Reads and advances over what is not taken up to `end`; true if there is
    /// an event.
    fn next(&mut self, end: usize) -> Result<bool, String> {
        let part = &self.stream[self.taken..end];
        match part.len() {
            0 => self.counts.count(EMPTY),
            _ if self.is_stopped() => self.counts.count(AFTER_60),
            0x10000.. => self.counts.count(OVER_16_BITS),
            _ => {}
        }
        let step = Case::stream_read(self.state.clone(), part.to_vec(), 0);
        let event = self.read(&step)?;
        let is_event = event.is_some();
        self.advance(&step, is_event)?;
        if let Some(event) = event {
            let length = match event {
                Event::Refused(KIND_UNKNOWN) => 1,
                _ => FRAME_LENGTH as u64,
            };
            let end = self.of_state(Call::StreamPlace)?;
            self.told.events.push((end.wrapping_sub(length), event));
        }
        self.test_state()?;
        Ok(is_event)
    }

    /// 60 was told.
    fn is_stopped(&self) -> bool {
        let last = self.told.events.last();
        last.is_some_and(|(_, event)| *event == Event::Refused(KIND_UNKNOWN))
    }

    /// The first event in the part. After 8 the same call is made with more room.
    fn read(&mut self, step: &Case) -> Result<Option<Event>, String> {
        let mut room = stream_random::room(self.random);
        let mut need = 0;
        loop {
            let case = step.clone().lent(room);
            let (answer, runs) = self.call(&case)?;
            self.counts.count(&counts::class(case.call, answer));
            let event = event(answer, &runs)?;
            let is_short = event == Some(Event::Refused(OUTPUT_SHORT));
            if !is_short && runs.len() >= need {
                return Ok(event);
            }
            if !is_short || room >= MOST_BYTES {
                return Err(format!("{case} answered {answer:016X}"));
            }
            need = room + 1;
            room = self.random.between(need, MOST_BYTES + 2);
        }
    }

    /// Takes some bytes with an event, all without one, and none after 60.
    fn advance(&mut self, step: &Case, is_event: bool) -> Result<(), String> {
        let case = step.beside(Call::StreamAdvance);
        let (taken, state) = self.call(&case)?;
        let all = case.inputs[1].len() as u64;
        let may_take = match is_event {
            true => 1..=all,
            false if self.is_stopped() => 0..=0,
            false => all..=all,
        };
        if !may_take.contains(&taken) {
            return Err(format!("{case} took {taken}"));
        }
        self.taken += taken as usize;
        self.state = state;
        Ok(())
    }

    /// The state is one that a call writes, and stands behind the bytes taken.
    fn test_state(&self) -> Result<(), String> {
        let state = State::of(&self.state);
        let end_of_held = state.place.wrapping_add(state.held.len() as u64);
        let is_sound = state.bytes() == self.state
            && state.stopped == self.is_stopped()
            && self.stream[..self.taken].ends_with(&state.held)
            && end_of_held == self.place_taken();
        match is_sound {
            true => Ok(()),
            false => Err(format!("{state:02X?} behind {} bytes", self.taken)),
        }
    }

    fn place_taken(&self) -> u64 {
        self.before.wrapping_add(self.taken as u64)
    }

    /// The answer of a call that takes the state alone.
    fn of_state(&mut self, call: Call) -> Result<u64, String> {
        let case = Case {
            call,
            inputs: vec![self.state.clone()],
            out_length: 0,
        };
        Ok(self.call(&case)?.0)
    }

    /// Makes a call: its answer and what it wrote where it may write. All other
    /// memory is as it was.
    fn call(&mut self, case: &Case) -> Result<(u64, Vec<u8>), String> {
        let mut lent = lend(case, self.random);
        if lent.iter().any(Lent::is_null) {
            self.counts.count(NULL_RUNS);
        }
        let mut memory = lent.clone();
        let answer = call(self.archive, case.call, &mut lent);
        let mut written = Vec::new();
        if let Some(place) = case.call.written() {
            let room = lent[place].held();
            let length = written_length(case.call, answer).min(room.len());
            written.extend(&room[..length]);
            memory[place].put(&written);
        }
        match difference(case, (answer, answer), &memory, &lent) {
            Some(text) => Err(text),
            None => Ok((answer, written)),
        }
    }
}

/// How many bytes a call writes that gives this answer.
fn written_length(call: Call, answer: u64) -> usize {
    match (call, answer.to_le_bytes()) {
        (Call::StreamAdvance, _) => state::LENGTH,
        (_, [0, _, first, second, ..]) => usize::from(first) + usize::from(second),
        _ => 0,
    }
}

/// What an answer tells with the runs that were written, if read can give it.
fn event(answer: u64, runs: &[u8]) -> Result<Option<Event>, String> {
    let length = written_length(Call::StreamRead, answer);
    match answer.to_le_bytes() {
        [0, 0, 0, 0, 0, 0, 0, 0] => Ok(None),
        [0, 1, first, _, 0, 0, 0, 0] if runs.len() == length => {
            let (first, second) = runs.split_at(first.into());
            Ok(Some(Event::Frame((first.to_vec(), second.to_vec()))))
        }
        [number @ (KIND_UNKNOWN | RECORD_WRONG | OUTPUT_SHORT), 0, 0, 0, 0, 0, 0, 0] => {
            Ok(Some(Event::Refused(number)))
        }
        _ => Err(format!("answer {answer:016X} with [{}]", hex(runs))),
    }
}
