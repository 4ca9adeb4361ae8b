//! Calls on a source.

mod line;
mod lists;
mod seen;
mod simpler;

pub use line::SourceLine;
pub use lists::{BadLists, NewSource};
pub use seen::{STATE_ROOM, lent_words};

use crate::case::Case;
use crate::listed::Listed;
use crate::shrink::{cuts, less, without};
use protocol::{Got, Op, Source, code, hex, source_line};
use seen::{Lent, SeenCall};
use simpler::simpler;

/// Operations on one source, after each of which it is asked for its window.
#[derive(Clone)]
pub struct Sequence {
    source: Source,
    ops: Vec<Op>,
}

impl Sequence {
    /// The original must have all of the operations (`original::has_op`).
    pub fn new(source: Source, ops: Vec<Op>) -> Sequence {
        Sequence { source, ops }
    }

    /// The question as a request; of slices, only new ones have one.
    pub fn line(&self) -> Option<String> {
        (self.source.streaming || self.source.given.is_none()).then(|| self.request())
    }

    fn asked(&self) -> impl Iterator<Item = Op> {
        self.ops.iter().flat_map(|op| [*op, Op::Window])
    }

    /// For a state that fits.
    fn by_original(&self) -> Vec<SeenCall> {
        let mut window = original::Window::new(&self.source);
        let calls = self.asked().map(|op| {
            let got = window.call(op).expect("an operation of the original");
            let buffer = window.buffer().unwrap_or(&self.source.buffer);
            SeenCall::expected(&self.source, got, window.numbers(), buffer)
        });
        calls.collect()
    }

    /// Simpler operations: fewer, or with lower counts.
    fn plainer(&self) -> impl Iterator<Item = Sequence> {
        let fewer = cuts(self.ops.len()).map(|cut| Sequence { ops: without(&self.ops, &cut), ..self.clone() });
        let counts = self.ops.iter().map(|op| op.count().unwrap_or(0)).enumerate();
        let counts = counts.flat_map(|(at, count)| less(count).map(move |lower| (at, lower)));
        let lower = counts.map(|(at, count)| {
            let mut plainer = self.clone();
            plainer.ops[at] = plainer.ops[at].with_count(count);
            plainer
        });
        fewer.chain(lower.filter(|plainer| plainer.ops.iter().all(|op| original::has_op(*op))))
    }
}

impl Case for Sequence {
    type Seen = Vec<SeenCall>;

    /// Of the first call that differs.
    fn name(&self) -> &'static str {
        let (expected, port) = (self.expected(), self.port());
        let mut calls = self.asked().zip(expected.iter().zip(&port));
        calls.find(|(_, (expected, port))| expected != port).map_or("source", |(op, _)| op.name())
    }

    fn calls(&self) -> impl Iterator<Item = &'static str> {
        self.asked().map(Op::name)
    }

    fn expected(&self) -> Vec<SeenCall> {
        let Some(position) = self.source.bad_place() else {
            return self.by_original();
        };
        let refused = Got::Refused { code: code::BAD_PLACE, position, missing: 0 };
        let seen = SeenCall::expected(&self.source, refused, self.source.numbers(), &self.source.buffer);
        vec![seen; 2 * self.ops.len()]
    }

    fn port(&self) -> Vec<SeenCall> {
        let mut lent = Lent::new(&self.source);
        self.asked().map(|op| lent.call(op)).collect()
    }

    fn listed(&self) -> Option<Listed> {
        self.source.bad_place().map(|_| Listed::BadSourceState)
    }

    fn smaller(&self) -> impl Iterator<Item = Self> {
        let sources = simpler(&self.source).map(|source| Sequence { source, ops: self.ops.clone() });
        self.plainer().chain(sources)
    }

    fn request(&self) -> String {
        let ops: Vec<String> = self.ops.iter().map(Op::to_string).collect();
        format!("source {} : {}", source_words(&self.source), ops.join(" ; "))
    }

    fn show(&self, seen: &Vec<SeenCall>) -> String {
        let (pairs, _) = seen.as_chunks::<2>();
        let line = |(op, [call, window]): (&Op, &[SeenCall; 2])| {
            let (got, state) = call.told(*op, window, self.source.streaming);
            source_line(&got, &state)
        };
        let lines: Vec<String> = self.ops.iter().zip(pairs).map(line).collect();
        let raw = |[call, window]: &[SeenCall; 2]| format!("   last words {}   window {}", call.raw(), window.raw());
        lines.join(" ; ") + &pairs.last().map_or(String::new(), raw)
    }
}

/// As a request has it; a slice in a given state has no request.
fn source_words(source: &Source) -> String {
    let Source { streaming, buffer, supply, schedule, given } = source;
    let (bytes, schedule) = (hex(supply), schedule_word(schedule));
    match given {
        None if !streaming && buffer.is_empty() && schedule == "-" => format!("slice {bytes}"),
        None if *streaming && buffer.iter().all(|byte| *byte == 0) => {
            format!("stream {} {bytes} {schedule}", buffer.len())
        }
        _ => {
            let kind = if *streaming { "state" } else { "a slice in a state:" };
            let (buffer, at) = (hex(buffer), source.numbers());
            let window = format!("{buffer} {} {} {}", at.start, at.end, at.position);
            format!("{kind} {window} {bytes} {} {schedule} {}", at.supply, at.schedule)
        }
    }
}

fn schedule_word(schedule: &[u32]) -> String {
    let entry = |entry: &u32| if *entry == Source::FAILS { "f".to_string() } else { entry.to_string() };
    let entries: Vec<String> = schedule.iter().map(entry).collect();
    if entries.is_empty() { "-".to_string() } else { entries.join(",") }
}
