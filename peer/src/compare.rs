//! Comparing the library's archive with the rules, case by case.

mod each;
mod each_response;
pub mod frame;
mod frame_random;
mod iso_random;
mod lent;
mod long_runs;
pub mod promise;
mod promise_random;
mod report_random;
pub mod stream;
mod stream_random;
mod supplement_random;
mod walk;

use crate::case::{Call, Case};
use crate::counts::{self, Counts};
use crate::random::Random;
use crate::text::{hex, hex_answer};
use lent::Lent;

/// A pointer and a length.
pub type Run = (*mut u8, usize);

/// Makes a call with its runs in their order, the output last.
pub type Archive<'a> = &'a dyn Fn(Call, &[Run]) -> u64;

/// After this many differences the comparing stops.
const ENOUGH: usize = 10;

const NULL_RUNS: &str = "NULL runs";

/// Compares `count` random and damaged supplements.
pub fn supplements(archive: Archive, count: u64, seed: u64) -> Outcome {
    let case = |random: &mut Random| Case::check(supplement_random::supplement(random));
    of_calls(archive, &[Call::Check], case, count, seed)
}

/// Compares `count` random pairs of supplement and frame or message.
pub fn reports(archive: Archive, count: u64, seed: u64) -> Outcome {
    let calls = [Call::Report, Call::IsoReport];
    of_calls(archive, &calls, report_random::case, count, seed)
}

fn of_calls(
    archive: Archive,
    calls: &[Call],
    case: impl Fn(&mut Random) -> Case,
    count: u64,
    seed: u64,
) -> Outcome {
    let mut random = Random::new(seed);
    let mut classes: Vec<String> = calls.iter().copied().flat_map(counts::classes).collect();
    classes.push(NULL_RUNS.to_string());
    let outcome = Outcome::new(calls[0].name(), classes).with_long_runs(archive, calls);
    outcome.run(count, |outcome| {
        let case = case(&mut random);
        let answer = case.answer();
        outcome.counts.count_answer(&case, &answer);
        outcome.compare(archive, &case, &answer, &mut random);
    })
}

/// What came of comparing one layer.
pub struct Outcome {
    layer: &'static str,
    /// The classes that must have a case.
    classes: Vec<String>,
    counts: Counts,
    cases: u64,
    /// Calls that are made only where memory suffices, in a layer that has such.
    long_runs: Option<u64>,
    /// What a layer tells in a line of its own.
    apart: Option<String>,
    pub differences: Vec<String>,
}

impl Outcome {
    fn new(layer: &'static str, classes: Vec<String>) -> Outcome {
        Outcome {
            layer,
            classes,
            counts: Counts::default(),
            cases: 0,
            long_runs: None,
            apart: None,
            differences: Vec::new(),
        }
    }

    /// `count` cases, each compared by `compare`, unless enough differ.
    fn run(mut self, count: u64, mut compare: impl FnMut(&mut Outcome)) -> Outcome {
        while self.cases < count && self.differences.len() < ENOUGH {
            self.cases += 1;
            compare(&mut self);
        }
        self
    }

    /// The count of each class in one line, and what is told apart in another.
    pub fn summary(&self) -> String {
        let (layer, cases, differ) = (self.layer, self.cases, self.differences.len());
        let mut counts = self.counts.summary(&self.classes);
        if let Some(calls) = self.long_runs {
            counts += &format!(", runs over 32 bits: {calls}");
        }
        let apart = self.apart.iter().map(|told| format!("\n{layer}: {told}"));
        let line = format!("{layer}: {cases} cases, {differ} differ ({counts})");
        line + &apart.collect::<String>()
    }

    /// The classes without a case.
    pub fn missing(&self) -> Vec<String> {
        self.counts.missing(&self.classes)
    }

    /// Makes one call; compares its number and all memory around what was lent.
    fn compare(
        &mut self,
        archive: Archive,
        case: &Case,
        (expected, written): &(u64, Vec<u8>),
        random: &mut Random,
    ) -> bool {
        let mut lent = lend(case, random);
        if lent.iter().any(Lent::is_null) {
            self.counts.count(NULL_RUNS);
        }
        let mut memory = lent.clone();
        if let Some(place) = case.call.written() {
            memory[place].put(written);
        }
        let given = call(archive, case.call, &mut lent);
        let found = difference(case, (*expected, given), &memory, &lent);
        let is_same = found.is_none();
        self.differences.extend(found);
        is_same
    }
}

/// The runs of the case, the output last.
fn lend(case: &Case, random: &mut Random) -> Vec<Lent> {
    let inputs = case.inputs.iter();
    let mut lent: Vec<Lent> = inputs.map(|run| Lent::holding(run, random)).collect();
    if case.call.has_output() {
        lent.push(Lent::filled(case.out_length, random));
    }
    lent
}

fn call(archive: Archive, call: Call, lent: &mut [Lent]) -> u64 {
    let runs: Vec<Run> = lent.iter_mut().map(Lent::run).collect();
    archive(call, &runs)
}

/// The case with both answers, and each run that is not as expected.
fn difference(
    case: &Case,
    (ours, archive): (u64, u64),
    expected: &[Lent],
    given: &[Lent],
) -> Option<String> {
    let is_other = |place: &usize| expected[*place].whole() != given[*place].whole();
    let touched: Vec<usize> = (0..given.len()).filter(is_other).collect();
    if ours == archive && touched.is_empty() {
        return None;
    }
    let mut text = case.to_string() + &both(&hex_answer(ours), &hex_answer(archive));
    for place in touched {
        let [ours, archive] = [expected, given].map(|lent| hex(lent[place].whole()));
        text += &format!("\n  memory of {}, guards too", case.call.runs()[place]);
        text += &both(&ours, &archive);
    }
    Some(text)
}

fn both(ours: &str, archive: &str) -> String {
    format!("\n  expected {ours}\n  archive  {archive}")
}

#[cfg(test)]
#[path = "compare/compare_tests.rs"]
mod tests;
