//! Vector files: one case a line, and one line of expected output for each.

pub mod frame;
mod frame_counts;
mod frame_iso_reads;
mod frame_iso_writes;
mod frame_reads;
mod frame_writes;
pub mod report;
mod report_bench;
mod report_extremes;
mod report_frames;
mod report_iso;
mod report_iso_bench;
mod report_items;
mod report_places;
mod report_selector_bench;
mod report_selectors;
mod report_states;
mod report_tables;
pub mod stream;
mod stream_cuts;
mod stream_records;
mod stream_states;
pub mod supplement;
mod supplement_keys;
mod supplement_places;
mod supplement_ranges;
pub mod tables;

use crate::case::{Call, Case};
use crate::counts::{self, Counts};
use std::collections::HashSet;
use std::path::Path;
use std::{fs, io};

/// How a case is written: its line, and the line of an answer to it.
struct Format {
    case: fn(&Case) -> String,
    expected: fn(&Case, u64, &[u8]) -> String,
}

/// The files of a folder with the counts of their answers; a case that is
/// already there is not added.
#[derive(Default)]
pub struct Files {
    stdin: String,
    stdout: String,
    names: String,
    seen: HashSet<String>,
    counts: Counts,
}

impl Files {
    /// Expected output that needs no cases.
    fn listing(expected: &str) -> Files {
        let mut files = Files::default();
        files.expect(expected);
        files
    }

    /// True if the case is new.
    fn add(&mut self, format: &Format, case: &Case, answer: (u64, Vec<u8>)) -> bool {
        let line = (format.case)(case);
        let is_new = self.seen.insert(line.clone());
        if is_new {
            self.stdin += &line;
            self.expect(&(format.expected)(case, answer.0, &answer.1));
            self.counts.count_answer(case, &answer);
        }
        is_new
    }

    /// The cases with the answers that the rules give.
    fn add_all(&mut self, format: &Format, cases: &[Case]) {
        for case in cases {
            self.add(format, case, case.answer());
        }
    }

    /// A name that stands in a file beside the cases, on the line of the last
    /// one: cases without a name come after all of these.
    fn name_last(&mut self, name: &str) {
        self.names += &format!("{name}\n");
        assert_eq!(self.names.lines().count(), self.cases(), "{name}");
    }

    /// The programs that run the cases print hex digits in lower case.
    fn expect(&mut self, expected: &str) {
        let lower = expected.chars().map(|letter| match letter {
            'A'..='F' => letter.to_ascii_lowercase(),
            _ => letter,
        });
        self.stdout.extend(lower);
    }

    fn cases(&self) -> usize {
        self.seen.len()
    }

    /// How many cases of each class, and the classes without a case.
    fn counted(&self, calls: &[Call]) -> (String, Vec<String>) {
        let classes: Vec<String> = calls.iter().copied().flat_map(counts::classes).collect();
        (self.counts.summary(&classes), self.counts.missing(&classes))
    }

    pub fn write(&self, folder: &Path) -> io::Result<()> {
        fs::create_dir_all(folder)?;
        if !self.stdin.is_empty() {
            fs::write(folder.join("stdin"), &self.stdin)?;
        }
        if !self.names.is_empty() {
            fs::write(folder.join("names"), &self.names)?;
        }
        fs::write(folder.join("stdout"), &self.stdout)
    }
}
