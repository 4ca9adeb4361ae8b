//! One question put to both sides.

use crate::listed::Listed;
use protocol::{Answer, WORDS};
use std::iter::once;

/// What both sides answer to one question must be equal.
pub trait Case: Sized {
    type Seen: PartialEq;

    fn name(&self) -> &'static str;

    /// Under what it is counted: once, or for each of its calls.
    #[inline]
    fn calls(&self) -> impl Iterator<Item = &'static str> {
        once(self.name())
    }

    /// The original's answer; FORMAT.md's where the difference is listed.
    fn expected(&self) -> Self::Seen;

    fn port(&self) -> Self::Seen;

    /// Whether it is asked at another offset than 0.
    #[inline]
    fn is_in_file(&self) -> bool {
        false
    }

    fn listed(&self) -> Option<Listed> {
        None
    }

    /// What the original does instead, for a listed difference.
    fn original(&self) -> Option<String> {
        None
    }

    /// Simpler questions near this one.
    fn smaller(&self) -> impl Iterator<Item = Self>;

    /// The question in the words of the call protocol, where it has words for it.
    fn request(&self) -> String;

    fn show(&self, seen: &Self::Seen) -> String;

    fn differs(&self) -> bool {
        self.expected() != self.port()
    }
}

/// A question that the port answers in a lent list.
pub trait Ask {
    fn ask(&self, answer: &mut [u64]) -> u32;
}

/// What stands in the lent list before a call.
pub const LENT: u64 = 0x5ea1_ed00_5ea1_ed00;
/// More than the port may fill.
pub const ROOM: usize = WORDS + 2;

/// A code, and the lent list after the call with what lies beyond the answer.
#[derive(Clone, Copy, Debug, PartialEq, Eq)]
pub struct Seen {
    pub code: u32,
    pub words: [u64; ROOM],
}

impl Seen {
    /// `room` words of the list are handed over.
    #[inline]
    pub fn of(room: usize, ask: impl FnOnce(&mut [u64]) -> u32) -> Seen {
        let mut words = [LENT; ROOM];
        let code = ask(&mut words[..room]);
        Seen { code, words }
    }

    pub fn port(case: &impl Ask) -> Seen {
        Seen::of(ROOM, |answer| case.ask(answer))
    }

    pub fn untouched(code: u32) -> Seen {
        Seen { code, words: [LENT; ROOM] }
    }

    pub fn answer(&self) -> Answer {
        let mut words = [0; WORDS];
        words.copy_from_slice(&self.words[..WORDS]);
        Answer { code: self.code, words }
    }

    /// Code and words.
    pub fn raw(&self) -> String {
        format!("{} {}", self.code, raw_words(&self.words))
    }
}

/// A word that was left as lent is a dot.
pub fn raw_words(words: &[u64]) -> String {
    let word = |word: &u64| if *word == LENT { ".".to_string() } else { word.to_string() };
    let words: Vec<String> = words.iter().map(word).collect();
    format!("[{}]", words.join(" "))
}

impl From<Answer> for Seen {
    fn from(answer: Answer) -> Seen {
        let mut seen = Seen::untouched(answer.code);
        seen.words[..WORDS].copy_from_slice(&answer.words);
        seen
    }
}
