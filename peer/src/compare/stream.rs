//! Comparing the calls of the stream: streams cut at random, single steps over
//! any state, and all cuts of some streams into three parts.

use super::walk::Walk;
use super::{both, stream_random, walk, Archive, Outcome, ENOUGH, NULL_RUNS};
use crate::case::{Call, Case};
use crate::counts;
use crate::random::Random;
use crate::stream::at_once;
use crate::stream::draft::{cuts_into_three, stream_of};
use crate::stream::state::State;
use crate::text::hex;

/// How many streams are tried with all their cuts into three parts.
const SAMPLES: u64 = 200;

const NOT_MADE: &str = "state no call made";

/// The calls that tell, of which each answer is a class.
const TELLING: [Call; 2] = [Call::StreamRead, Call::StreamEnd];

/// Compares `count` random streams and steps, and all cuts of the samples.
pub fn run(archive: Archive, count: u64, seed: u64) -> Outcome {
    let mut random = Random::new(seed);
    let outcome = Outcome::new("stream", classes());
    let calls = [Call::StreamRead, Call::StreamAdvance];
    let outcome = outcome.with_long_runs(archive, &calls);
    let outcome = outcome.run(count, |outcome| {
        if random.once_in(2) {
            outcome.compare_random_walk(archive, &mut random);
        } else {
            outcome.compare_step(archive, &mut random);
        }
    });
    outcome.with_all_cuts(archive, &mut random)
}

fn classes() -> Vec<String> {
    let of_calls: Vec<String> = TELLING.into_iter().flat_map(counts::classes).collect();
    let of_steps = of_calls.iter().map(|class| of_step(class));
    let mut classes = of_calls.clone();
    classes.extend(walk::CLASSES.map(String::from));
    classes.extend(stream_random::CUTS.map(String::from));
    classes.extend(of_steps);
    classes.extend([NOT_MADE, NULL_RUNS].map(String::from));
    classes
}

fn of_step(class: &str) -> String {
    format!("step {class}")
}

impl Outcome {
    fn compare_random_walk(&mut self, archive: Archive, random: &mut Random) {
        let stream = stream_random::stream(random);
        let (class, cuts) = stream_random::cuts(stream.len(), random);
        self.counts.count(class);
        let before = stream_random::place(random);
        self.compare_walk(archive, before, &stream, &cuts, random);
    }

    /// Compares what the calls tell of a stream cut so with what the whole tells.
    fn compare_walk(
        &mut self,
        archive: Archive,
        before: u64,
        stream: &[u8],
        cuts: &[usize],
        random: &mut Random,
    ) -> bool {
        let walk = Walk::new(archive, before, stream, &mut self.counts, random);
        let told = walk.told(cuts);
        let whole = at_once(before, stream);
        let text = match told {
            Ok(told) if told == whole => return true,
            Ok(told) => both(&format!("{whole:?}"), &format!("{told:?}")),
            Err(text) => format!("\n  {text}"),
        };
        let stream = hex(stream);
        let text = format!("stream [{stream}] at {before:016X} cut at {cuts:?}{text}");
        self.differences.push(text);
        false
    }

    /// Compares each call of one step.
    fn compare_step(&mut self, archive: Archive, random: &mut Random) {
        let step = stream_random::step(random);
        if !is_made(&step) {
            self.counts.count(NOT_MADE);
        }
        let others = [Call::StreamAdvance, Call::StreamEnd, Call::StreamPlace];
        let mut cases = others.map(|call| step.beside(call)).to_vec();
        cases.push(step);
        for case in cases {
            let answer = case.answer();
            if TELLING.contains(&case.call) {
                let class = counts::class(case.call, answer.0);
                self.counts.count(&of_step(&class));
            }
            self.compare(archive, &case, &answer, random);
        }
    }

    /// Unless enough differ.
    fn with_all_cuts(mut self, archive: Archive, random: &mut Random) -> Outcome {
        let (mut streams, mut tried, mut differ) = (0, 0, 0);
        while streams < SAMPLES && self.differences.len() < ENOUGH {
            let stream = stream_of(random.between(1, 4), random);
            for cuts in cuts_into_three(stream.len()) {
                let is_same = self.compare_walk(archive, 0, &stream, &cuts, random);
                differ += u64::from(!is_same);
                tried += 1;
            }
            streams += 1;
        }
        let counts = format!("{streams} streams, {tried} cuts into three parts");
        self.apart = Some(format!("{counts}, {differ} differ"));
        self
    }
}

/// Calls from a fresh state can come to the state of the step, but for its place.
fn is_made(step: &Case) -> bool {
    let state = State::of(&step.inputs[0]);
    state.bytes() == step.inputs[0] && (state.held.is_empty() || !state.stopped)
}

#[cfg(test)]
#[path = "stream_tests.rs"]
mod tests;
