//! How many cases each class of answer has.

use crate::case::{Call, Case};
use crate::frame::bus::Bus;
use crate::report::line::unknown;
use crate::report::number::Number;
use crate::report::rows::{number, parse, unknown_number, Rows};
use crate::report::Sought;
use crate::supplement::records::Records;
use std::collections::BTreeMap;

#[derive(Default)]
pub struct Counts {
    counts: BTreeMap<String, u64>,
}

impl Counts {
    pub fn count(&mut self, class: &str) {
        *self.counts.entry(class.to_string()).or_default() += 1;
    }

    pub fn count_answer(&mut self, case: &Case, (answer, written): &(u64, Vec<u8>)) {
        for class in classes_of(case, *answer, written) {
            self.count(&class);
        }
    }

    pub fn of(&self, class: &str) -> u64 {
        self.counts.get(class).copied().unwrap_or(0)
    }

    /// Each of the classes with its count.
    pub fn summary(&self, classes: &[String]) -> String {
        let counts = classes
            .iter()
            .map(|class| format!("{class}: {}", self.of(class)));
        counts.collect::<Vec<String>>().join(", ")
    }

    /// Those of the classes that have no case.
    pub fn missing(&self, classes: &[String]) -> Vec<String> {
        let without_case = classes.iter().filter(|class| self.of(class) == 0);
        without_case.cloned().collect()
    }
}

/// Accepted, or refused with its number; a frame is read or written. A stream
/// accepts nothing: it has a frame or none, and it ends.
pub fn class(call: Call, answer: u64) -> String {
    let verdict = match (call, answer & 0xFF) {
        (Call::StreamRead, 0) if answer == 0 => "nothing".to_string(),
        (Call::StreamRead, 0) => "frame".to_string(),
        (Call::StreamEnd, 0) => "end".to_string(),
        (_, 0) => "accepted".to_string(),
        (_, number) => format!("refused {number}"),
    };
    if call.is(Call::Read) || call.is(Call::Write) {
        format!("{} {verdict}", call.name())
    } else {
        on_bus(call.bus(), &verdict)
    }
}

/// A class of reports; those of ISO 9141-2 are counted by themselves.
pub fn on_bus(bus: Bus, class: &str) -> String {
    match bus {
        Bus::J1850 => class.to_string(),
        Bus::Iso9141 => format!("ISO {class}"),
    }
}

/// The refusals of a call in the order of its tests.
fn refusals(call: Call) -> &'static [u64] {
    match call {
        Call::Read => &[1, 2, 3, 4, 50, 51, 52, 53, 6],
        Call::Write => &[7, 4, 50, 51, 53, 1, 8],
        Call::Check => &[10, 11, 12, 13, 14, 15],
        Call::Report => &[1, 2, 3, 4, 50, 51, 52, 53, 6, 8, 10, 11, 12, 13, 14, 15],
        Call::IsoRead => &[1, 2, 3, 9],
        Call::IsoWrite => &[7, 9, 1, 8],
        Call::IsoReport => &[1, 2, 3, 9, 8, 10, 11, 12, 13, 14, 15],
        Call::StreamRead => &[60, 61, 8],
        Call::StreamEnd => &[62],
        Call::StreamAdvance | Call::StreamPlace => panic!("{} refuses nothing", call.name()),
    }
}

/// The answer to a frame record of two empty runs.
const ANY_FRAME: u64 = 1 << 8;

const SIXTEEN_ITEMS: &str = "sixteen items";

/// Selectors whose length a record says, selectors that the data cut short, and
/// the selectors of layouts that were found.
const SELECTORS: [&str; 9] = [
    "recorded selector of 0",
    "recorded selector of 1",
    "recorded selector of 2",
    "0 of 1 selector bytes",
    "0 of 2 selector bytes",
    "1 of 2 selector bytes",
    "layout of selector length 0",
    "layout of selector length 1",
    "layout of selector length 2",
];

/// A class of Numbers, and whether one belongs to it.
type Fraction = (&'static str, fn(&Number) -> bool);

/// What a fraction told wrong would lose: its sign, its upper 32 bits, its divisor,
/// or a factor that both parts have.
const FRACTIONS: [Fraction; 7] = [
    ("above negative", |number| number.above < 0),
    ("above 0 over more than 1", |number| {
        number.above == 0 && number.divisor > 1
    }),
    ("above over 2^32", |number| number.above > 1 << 32),
    ("above under -2^32", |number| number.above < -(1 << 32)),
    ("divisor 1", |number| number.divisor == 1),
    ("divisor over 1", |number| number.divisor > 1),
    ("reducible", Number::is_reducible),
];

/// The classes of answer that a call has.
pub fn classes(call: Call) -> Vec<String> {
    let mut classes = vec![class(call, 0)];
    if call == Call::StreamRead {
        classes.push(class(call, ANY_FRAME));
    }
    classes.extend(refusals(call).iter().map(|number| class(call, *number)));
    if call.is(Call::Report) {
        let has_response = call.bus() == Bus::J1850;
        let is_there = |number: &u8| has_response || *number != unknown::RESPONSE;
        let mut of_rows: Vec<String> = Vec::new();
        of_rows.extend((1..=3).map(|verdict| format!("verdict {verdict}")));
        of_rows.extend((1..=10).map(|kind| format!("row {kind}")));
        let unknown = (1..=8).filter(is_there);
        of_rows.extend(unknown.map(|number| format!("Unknown {number}")));
        of_rows.extend(FRACTIONS.map(|(class, _)| class.to_string()));
        of_rows.push(SIXTEEN_ITEMS.to_string());
        of_rows.extend(SELECTORS.map(String::from));
        classes.extend(of_rows.iter().map(|class| on_bus(call.bus(), class)));
    }
    classes
}

/// Those of them that one answer belongs to; a row that stands twice counts
/// twice.
fn classes_of(case: &Case, answer: u64, written: &[u8]) -> Vec<String> {
    let call = case.call;
    let mut classes = vec![class(call, answer)];
    let report = parse(written).filter(|_| call.is(Call::Report));
    if let Some(rows) = report {
        let mut of_report = classes_of_rows(&rows);
        of_report.extend(selectors_of(case));
        classes.extend(of_report.iter().map(|class| on_bus(call.bus(), class)));
    }
    classes
}

fn classes_of_rows(rows: &Rows) -> Vec<String> {
    let mut classes = vec![format!("verdict {}", rows.verdict)];
    if rows.items.len() == 16 {
        classes.push(SIXTEEN_ITEMS.to_string());
    }
    for line in rows.lines() {
        classes.push(format!("row {}", line[0]));
        let unknown = unknown_number(line);
        classes.extend(unknown.map(|number| format!("Unknown {number}")));
        classes.extend(number(line).iter().flat_map(fractions_of));
    }
    classes
}

/// Of an accepted report.
fn selectors_of(case: &Case) -> Vec<String> {
    let (first, response) = (&case.inputs[1], case.inputs.get(2));
    let response = response.map(Vec::as_slice).unwrap_or_default();
    let read = case.call.bus().read(first, response);
    let parts = read.expect("an accepted frame or message");
    let records = Records::of(&case.inputs[0]);
    let sought = Sought::of(&records, &parts);
    let (there, length) = (sought.selector.len(), sought.length);
    let mut classes = Vec::new();
    if there < length {
        classes.push(format!("{there} of {length} selector bytes"));
    } else if records.selector_length(sought.header).is_some() {
        classes.push(format!("recorded selector of {length}"));
    }
    if records.layout(sought.layout_key()).is_some() {
        classes.push(format!("layout of selector length {there}"));
    }
    classes
}

fn fractions_of(number: &Number) -> Vec<String> {
    let fractions = FRACTIONS.iter().filter(|(_, is_of_it)| is_of_it(number));
    fractions.map(|(class, _)| class.to_string()).collect()
}
