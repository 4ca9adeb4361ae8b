//! The lines, each once.

use super::entry::{CALLS, Entry, Recorded};
use protocol::hex;
use std::collections::{BTreeMap, BTreeSet};

/// The longest input that is recorded.
pub const LONGEST: usize = 256;
/// The most that a recorded call is lent.
pub const LONGEST_OUTPUT: usize = 1024;

#[derive(Default)]
pub struct Sample {
    lines: Vec<String>,
    seen: BTreeSet<String>,
    counts: BTreeMap<usize, usize>,
}

impl Sample {
    pub fn add(&mut self, case: &impl Recorded) {
        for entry in case.entries() {
            self.add_entry(&entry);
        }
    }

    pub fn add_entry(&mut self, entry: &Entry) {
        self.put(entry, format!("{entry}\n"));
    }

    /// With what the call leaves at the front of what it is lent: of the `entry.at` bytes or numbers.
    pub fn add_output(&mut self, entry: &Entry, output: &[u8]) {
        assert!(entry.at <= LONGEST_OUTPUT, "{} lent", entry.at);
        self.put(entry, format!("{entry}/{}\n", hex(output)));
    }

    /// A comment before the next line.
    pub fn note(&mut self, words: &str) {
        self.lines.push(format!("# {words}\n"));
    }

    fn put(&mut self, entry: &Entry, line: String) {
        assert!(entry.bytes.len() <= LONGEST, "an input of {} bytes", entry.bytes.len());
        if self.seen.insert(line.clone()) {
            *self.counts.entry(entry.index()).or_default() += 1;
            self.lines.push(line);
        }
    }

    pub fn lines(&self) -> String {
        self.lines.concat()
    }

    pub fn print_counts(&self) {
        for (call, name) in CALLS.iter().enumerate() {
            let count = self.counts.get(&call).unwrap_or_else(|| panic!("nothing is recorded of {name}"));
            println!("{count:>6} {name}");
        }
        println!("{:>6} answers of the original", self.counts.values().sum::<usize>());
    }
}
