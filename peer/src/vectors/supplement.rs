//! The vector files of the supplement's test.

use super::{supplement_keys, supplement_places, supplement_ranges, Files, Format};
use crate::case::{Call, Case};
use crate::random::Random;
use crate::text::{hex, hex_answer};

const SEED: u64 = 2178;

/// The length in four digits, then the bytes; the answer alone.
const FORMAT: Format = Format {
    case: |case| format!("{:04X} {}\n", case.inputs[0].len(), hex(&case.inputs[0])),
    expected: |_, answer, _| hex_answer(answer) + "\n",
};

/// The files, a line of counts, and the classes of answer without a case.
pub fn make() -> (Files, String, Vec<String>) {
    let mut random = Random::new(SEED);
    let mut supplements = supplement_places::cases(&mut random);
    supplements.extend(supplement_ranges::cases(&mut random));
    supplements.extend(supplement_keys::cases(&mut random));
    let cases: Vec<Case> = supplements.into_iter().map(Case::check).collect();
    let mut files = Files::default();
    files.add_all(&FORMAT, &cases);
    let (counts, missing) = files.counted(&[Call::Check]);
    let summary = format!("supplement: {} cases; {counts}", files.cases());
    (files, summary, missing)
}
