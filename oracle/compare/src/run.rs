//! A run: it asks, counts, and keeps the differences.

use crate::case::Case;
use crate::listed::Listed;
use crate::shrink::shrink;
use std::io::{IsTerminal, Write, stderr};
use std::num::NonZero;
use std::sync::Mutex;
use std::thread::{available_parallelism, scope};

pub struct Run {
    counts: Counts,
    listed: [u64; Listed::ALL.len()],
    in_file: u64,
    different: Counts,
    progress: bool,
}

impl Run {
    pub fn new() -> Run {
        Run {
            counts: Counts::default(),
            listed: [0; Listed::ALL.len()],
            in_file: 0,
            different: Counts::default(),
            progress: stderr().is_terminal(),
        }
    }

    pub fn check<C: Case>(&mut self, case: &C) {
        let mut calls = 0;
        for name in case.calls() {
            self.counts.add(name);
            calls += 1;
        }
        if let Some(listed) = case.listed() {
            self.listed[listed as usize] += calls;
        }
        if case.is_in_file() {
            self.in_file += calls;
        }
        if case.differs() {
            self.differ(case);
        }
    }

    /// Checks, and prints question and answer. The case must be one of this difference.
    pub fn show<C: Case>(&mut self, listed: Listed, case: &C) {
        assert_eq!(case.listed(), Some(listed), "{}", case.request());
        println!("  {} => {}", case.request(), case.show(&case.port()));
        if let Some(original) = case.original() {
            println!("  the original: {original}");
        }
        self.check(case);
    }

    /// The first difference under each name is made as small as can be.
    fn differ<C: Case>(&mut self, case: &C) {
        if self.different.add(case.name()) > 1 {
            return;
        }
        match shrink(case) {
            Some(small) => report(&small),
            None => report(case),
        }
    }

    /// The parts of a stage, on all processors.
    pub fn shared<P: Send>(
        &mut self,
        stage: &str,
        parts: impl Iterator<Item = P> + Send,
        work: impl Fn(&mut Run, P) + Sync,
    ) {
        let (_, all) = parts.size_hint();
        let parts = Mutex::new(parts.enumerate());
        let next = || parts.lock().expect("no other has failed").next();
        let worker = || {
            let mut run = Run { progress: false, ..Run::new() };
            while let Some((done, part)) = next() {
                self.progress(stage, done, all.unwrap_or(done));
                work(&mut run, part);
            }
            run
        };
        let runs = scope(|threads| {
            let workers: Vec<_> = (0..processors()).map(|_| threads.spawn(worker)).collect();
            workers.into_iter().map(|worker| worker.join().expect("a worker ends")).collect::<Vec<Run>>()
        });
        for run in &runs {
            self.add(run);
        }
    }

    fn add(&mut self, other: &Run) {
        self.counts.add_all(&other.counts);
        self.different.add_all(&other.different);
        self.in_file += other.in_file;
        for (count, more) in self.listed.iter_mut().zip(other.listed) {
            *count += more;
        }
    }

    pub fn progress(&self, stage: &str, done: usize, all: usize) {
        if self.progress {
            eprint!("\r\x1b[K{stage}: {done} of {all}, {} calls", self.counts.total());
            stderr().flush().expect("a terminal takes text");
        }
    }

    /// The counts; true if nothing differs but what is listed.
    pub fn finish(&self) -> bool {
        if self.progress {
            eprint!("\r\x1b[K");
        }
        for (name, count) in &self.counts.0 {
            println!("{count:>12} {name}");
        }
        println!("{:>12} in all", self.counts.total());
        println!("{:>12} of them: at another offset than 0", self.in_file);
        for listed in Listed::ALL {
            println!("{:>12} of them: listed difference {}", self.listed[listed as usize], listed.name());
        }
        for (name, count) in &self.different.0 {
            println!("DIFFERENT {name}: {count}");
        }
        println!("{:>12} different", self.different.total());
        self.different.total() == 0
    }
}

fn processors() -> usize {
    available_parallelism().map_or(1, NonZero::get)
}

fn report<C: Case>(case: &C) {
    let [expected, port] = [case.expected(), case.port()].map(|seen| case.show(&seen));
    println!("DIFFERENT {}\n  {}\n  expected {expected}\n  port     {port}", case.name(), case.request());
}

/// Counts by name, in the order of their coming, the last one found again at once.
#[derive(Default)]
struct Counts(Vec<(&'static str, u64)>, usize);

impl Counts {
    fn add(&mut self, name: &'static str) -> u64 {
        self.add_many(name, 1)
    }

    fn add_all(&mut self, other: &Counts) {
        for (name, count) in &other.0 {
            self.add_many(name, *count);
        }
    }

    #[inline]
    fn add_many(&mut self, name: &'static str, count: u64) -> u64 {
        if self.0.get(self.1).is_none_or(|(last, _)| !std::ptr::eq(*last, name)) {
            self.1 = self.0.iter().position(|(known, _)| *known == name).unwrap_or(self.0.len());
            if self.1 == self.0.len() {
                self.0.push((name, 0));
            }
        }
        self.0[self.1].1 += count;
        self.0[self.1].1
    }

    fn total(&self) -> u64 {
        self.0.iter().map(|(_, count)| count).sum()
    }
}
