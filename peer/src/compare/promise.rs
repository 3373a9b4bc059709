//! What a report keeps when records are added to the supplement or taken away,
//! told from the rows that the archive gives.

use super::promise_random::{self, Pair};
use super::{call, lend, Archive, Outcome, ENOUGH};
use crate::case::Case;
use crate::counts::{on_bus, Counts};
use crate::frame::bus::Bus;
use crate::random::Random;
use crate::report::line::LONGEST;
use crate::report::promise::{broken_sentences, is_shown_kept, premise};
use crate::report::rows::{is_short, is_unknown, left, parse, unknown_number, Rows};
use crate::report::scene::parts_of;
use crate::report::{find_prn, Sought};
use crate::supplement::records::Records;
use crate::supplement::selector_length::Header;
use crate::text::hex;

/// What fewer records change, what of the rows was tried, and which kind 4 records
/// there were.
const CLASSES: [&str; 29] = [
    "same report",
    "item turned Unknown 1",
    "item turned Unknown 2",
    "item turned Unknown 3",
    "item of another Unknown number",
    "item lines missing",
    "layout in neither",
    "remainder turned Unknown 2",
    "remainder turned Unknown 8",
    "Left turned Unknown",
    "Short turned Unknown",
    "Clear stays",
    "Flagged stays",
    "Unknown stays",
    "Clear turned Unknown",
    "Flagged turned Unknown",
    "widths and Left",
    "widths and Left, not 0",
    "layout of selector length 0",
    "layout of selector length 1",
    "layout of selector length 2",
    "kind 4 in both, header with a layout",
    "kind 4 in both, header without a layout",
    "kind 4 added, header without a layout",
    "frame's kind 4 in both, header with a layout",
    "frame's kind 4 in both, header without a layout",
    "frame's kind 4 added, header without a layout",
    PREMISE_BROKEN,
    SHOWN_CHANGED,
];

/// Pairs that break the premise, and those of them in which a shown line changed.
const PREMISE_BROKEN: &str = "premise broken";
const SHOWN_CHANGED: &str = "premise broken, a shown line changed";

/// The counts of the classes of one bus.
struct Tally<'a> {
    bus: Bus,
    counts: &'a mut Counts,
}

impl Tally<'_> {
    fn count(&mut self, class: &str) {
        self.counts.count(&on_bus(self.bus, class));
    }
}

/// Tries random pairs of supplements with a frame or message until `count` of them
/// are judged, which are those under the premise. Those that break it come on top.
pub fn run(archive: Archive, count: u64, seed: u64) -> Outcome {
    let mut random = Random::new(seed);
    let classes = Bus::BOTH.map(|bus| CLASSES.map(|class| on_bus(bus, class)));
    let mut outcome = Outcome::new("promise", classes.concat());
    while outcome.cases < count && outcome.differences.len() < ENOUGH {
        let pair = promise_random::pair(&mut random);
        if let Err(text) = outcome.try_pair(archive, &pair, &mut random) {
            outcome.differences.push(format!("{text}\n  {pair}"));
        }
    }
    outcome.apart = Some(outcome.told_of_premise());
    outcome
}

impl Outcome {
    fn try_pair(
        &mut self,
        archive: Archive,
        pair: &Pair,
        random: &mut Random,
    ) -> Result<(), String> {
        let fewer = Side::of(archive, &pair.fewer, pair, random)?;
        let more = Side::of(archive, &pair.more, pair, random)?;
        let mut tally = Tally {
            bus: pair.bus,
            counts: &mut self.counts,
        };
        if premise(&fewer.records, &more.records) {
            self.cases += 1;
            judge(pair, &fewer, &more, &mut tally)
        } else {
            count_apart(&fewer, &more, &mut tally)
        }
    }

    fn told_of_premise(&self) -> String {
        let on_both = |class| -> u64 {
            let counts = Bus::BOTH.map(|bus| self.counts.of(&on_bus(bus, class)));
            counts.iter().sum()
        };
        let judged = self.cases;
        let [broken, changed] = [PREMISE_BROKEN, SHOWN_CHANGED].map(on_both);
        let told = format!("{judged} pairs under the premise, judged");
        format!(
            "{told}; {broken} pairs that break it, not judged: in {changed} a shown line changed"
        )
    }
}

/// A supplement's records, and the report that the archive gives under them.
struct Side {
    records: Records,
    report: Vec<u8>,
}

impl Side {
    fn of(
        archive: Archive,
        supplement: &[u8],
        pair: &Pair,
        random: &mut Random,
    ) -> Result<Side, String> {
        Ok(Side {
            records: Records::of(supplement),
            report: report(archive, supplement, pair, random)?,
        })
    }

    fn rows(&self) -> Result<Rows<'_>, String> {
        let no_rows = || format!("no rows of a report: {}", hex(&self.report));
        parse(&self.report).ok_or_else(no_rows)
    }
}

/// The rows of an accepted supplement and frame or message.
fn report(
    archive: Archive,
    supplement: &[u8],
    pair: &Pair,
    random: &mut Random,
) -> Result<Vec<u8>, String> {
    let runs = pair.frame.runs_on(pair.bus);
    let case = Case::report_on(pair.bus, supplement.to_vec(), runs);
    let mut lent = lend(&case, random);
    let answer = call(archive, case.call, &mut lent);
    let length = (answer >> 8) as usize;
    if answer & 0xFF != 0 || length > LONGEST {
        return Err(format!("answer {answer:016X} to an accepted supplement"));
    }
    let out = lent.last().expect("a report has an output");
    Ok(out.held()[..length].to_vec())
}

/// What is promised of a pair under the premise.
fn judge(pair: &Pair, fewer: &Side, more: &Side, tally: &mut Tally) -> Result<(), String> {
    let (fewer_rows, more_rows) = (fewer.rows()?, more.rows()?);
    let parts = parts_of(&pair.frame);
    // the layout that the second report uses, if the first has it
    let sought = Sought::of(&more.records, &parts);
    let layout = fewer.records.layout(sought.layout_key());
    if let Some(layout) = layout {
        let length = layout.selector_length;
        tally.count(&format!("layout of selector length {length}"));
    }
    let mut broken = broken_sentences(&fewer_rows, &more_rows, layout.is_some());
    for (side, rows) in [(fewer, &fewer_rows), (more, &more_rows)] {
        broken.extend(try_widths(&side.records, pair, rows, tally));
    }
    count(&fewer_rows, &more_rows, tally);
    count_kind_4(&fewer.records, &more.records, sought.header, tally);
    if broken.is_empty() {
        return Ok(());
    }
    let (fewer, more) = (hex(&fewer.report), hex(&more.report));
    let sentences = broken.join("; ");
    Err(format!("{sentences}\n  fewer {fewer}\n  more  {more}"))
}

/// Of a pair that breaks the premise nothing is promised but that there are reports.
fn count_apart(fewer: &Side, more: &Side, tally: &mut Tally) -> Result<(), String> {
    tally.count(PREMISE_BROKEN);
    if !is_shown_kept(&fewer.rows()?, &more.rows()?) {
        tally.count(SHOWN_CHANGED);
    }
    Ok(())
}

/// Item widths plus Left equal the bits after the selector, if no line is
/// Short or lost.
fn try_widths(
    records: &Records,
    pair: &Pair,
    rows: &Rows,
    tally: &mut Tally,
) -> Option<&'static str> {
    let parts = parts_of(&pair.frame);
    let sought = Sought::of(records, &parts);
    let layout = records.layout(sought.layout_key())?;
    let is_lost = |line: &&[u8]| matches!(unknown_number(line), Some(1 | 2));
    let lines = rows.lines();
    if lines.iter().any(|line| is_short(line) || is_lost(line)) {
        return None;
    }
    tally.count("widths and Left");
    let widths = layout.used().iter().map(|prn| {
        let row = find_prn(records, *prn);
        row.map_or(0, |row| usize::from(row.width))
    });
    let left = left(rows.remainder);
    if left.is_some_and(|left| left > 0) {
        tally.count("widths and Left, not 0");
    }
    let is_kept = left.is_some_and(|left| widths.sum::<usize>() + left == sought.bits());
    (!is_kept).then_some("widths and Left equal the bits after the selector")
}

/// The kind 4 records of the second: in the first too or added, and whether the
/// first has a layout for the header.
fn count_kind_4(first: &Records, second: &Records, frame: Header, tally: &mut Tally) {
    for record in &second.selector_lengths {
        let stands = match first.selector_lengths.contains(record) {
            true => "in both",
            false => "added",
        };
        let layout = match first.has_layout_for(record.header) {
            true => "with",
            false => "without",
        };
        let class = format!("kind 4 {stands}, header {layout} a layout");
        tally.count(&class);
        if record.header == frame {
            tally.count(&format!("frame's {class}"));
        }
    }
}

/// What the fewer records changed.
fn count(fewer: &Rows, more: &Rows, tally: &mut Tally) {
    if fewer == more {
        tally.count("same report");
    }
    for (fewer, more) in fewer.items.iter().zip(&more.items) {
        match (unknown_number(fewer), unknown_number(more)) {
            (Some(number), None) => tally.count(&format!("item turned Unknown {number}")),
            (Some(a), Some(b)) if a != b => {
                tally.count("item of another Unknown number");
            }
            _ => {}
        }
    }
    if fewer.items.len() < more.items.len() {
        tally.count("item lines missing");
    }
    count_remainders(fewer.remainder, more.remainder, tally);
    let names = ["", "Clear", "Flagged", "Unknown"];
    let [before, after] = [more, fewer].map(|rows| names[usize::from(rows.verdict)]);
    if before == after {
        tally.count(&format!("{before} stays"));
    } else {
        tally.count(&format!("{before} turned {after}"));
    }
}

fn count_remainders(fewer: &[u8], more: &[u8], tally: &mut Tally) {
    match (unknown_number(fewer), unknown_number(more)) {
        (Some(8), Some(8)) => tally.count("layout in neither"),
        (Some(number), other) if other != Some(number) => {
            tally.count(&format!("remainder turned Unknown {number}"));
        }
        _ => {}
    }
    if is_unknown(fewer) && left(more).is_some() {
        tally.count("Left turned Unknown");
    }
    if is_unknown(fewer) && is_short(more) {
        tally.count("Short turned Unknown");
    }
}
