//! Comparing the calls that read and write, on each bus.

use super::{each, frame_random, Archive, Outcome, NULL_RUNS};
use crate::case::{Call, Case};
use crate::counts;
use crate::frame::bus::Bus;
use crate::frame::draft::Draft;
use crate::frame::Parts;
use crate::random::Random;

const WRITTEN_AGAIN: &str = "written again";
const READ_BACK: &str = "read back";

/// Compares `count` random cases of J1850, and all that is tried whole.
pub fn run(archive: Archive, count: u64, seed: u64) -> Outcome {
    run_on(Bus::J1850, "frame", archive, count, seed)
}

/// Compares `count` random cases of ISO 9141-2, and all that is tried whole.
pub fn run_iso(archive: Archive, count: u64, seed: u64) -> Outcome {
    run_on(Bus::Iso9141, "iso", archive, count, seed)
}

fn run_on(bus: Bus, layer: &'static str, archive: Archive, count: u64, seed: u64) -> Outcome {
    let mut random = Random::new(seed);
    let calls = [Call::Read, Call::Write].map(|call| call.on(bus));
    let mut classes: Vec<String> = calls.into_iter().flat_map(counts::classes).collect();
    classes.extend([WRITTEN_AGAIN, READ_BACK, NULL_RUNS].map(String::from));
    classes.extend(each::classes(bus));
    let outcome = Outcome::new(layer, classes).with_long_runs(archive, &calls);
    let outcome = outcome.run(count, |outcome| {
        let case = frame_random::case(bus, &mut random);
        let answer = case.answer();
        outcome.counts.count_answer(&case, &answer);
        let is_same = outcome.compare(archive, &case, &answer, &mut random);
        if is_same && answer.0 & 0xFF == 0 {
            let (name, other) = other_way(&case, &answer.1, &mut random);
            outcome.counts.count(name);
            outcome.compare(archive, &other, &other.answer(), &mut random);
        }
    });
    outcome.with_each(archive, bus, &mut random)
}

/// An accepted frame's parts written again, or what was written read back.
fn other_way(case: &Case, written: &[u8], random: &mut Random) -> (&'static str, Case) {
    if case.call.is(Call::Read) {
        (WRITTEN_AGAIN, written_again(case, random))
    } else {
        (READ_BACK, read_back(case, written))
    }
}

/// What the reader makes of its case, which it accepts.
fn parts(case: &Case) -> Parts<'_> {
    let response = case.inputs.get(1).map_or(&[][..], Vec::as_slice);
    let read = case.call.bus().read(&case.inputs[0], response);
    read.expect("an accepted frame or message")
}

/// The writer's case of an accepted frame; it must give the same bytes.
fn written_again(case: &Case, random: &mut Random) -> Case {
    let parts = parts(case);
    let draft = Draft::new(parts.header, parts.data, parts.response);
    let whole = case.inputs.concat();
    let again = Case::write_on(case.call.bus(), draft, whole.len() + random.below(3));
    assert_eq!(again.answer().1, whole);
    again
}

/// The reader's case of what was written; it must give the same parts.
fn read_back(case: &Case, written: &[u8]) -> Case {
    let first_length = case.inputs[0].len() + case.inputs[1].len() + 1;
    let (first, response) = written.split_at(first_length);
    let back = Case::read_on(case.call.bus(), (first.to_vec(), response.to_vec()));
    let parts = parts(&back);
    let given = [parts.header, parts.data, parts.response];
    assert_eq!(given[..case.inputs.len()], case.inputs);
    back
}
