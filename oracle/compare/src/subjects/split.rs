//! get_split after a count.

use crate::case::{Ask, Case, Seen};
use crate::record::{Entry, Recorded};
use crate::shrink::{cuts, less, without};
use protocol::{hex, split_line};

/// The count is at most `original::LARGEST_COUNT`.
pub struct Split {
    pub bytes: Vec<u8>,
    pub count: usize,
}

impl Ask for Split {
    fn ask(&self, answer: &mut [u64]) -> u32 {
        port::split(&self.bytes, self.count, answer)
    }
}

impl Case for Split {
    type Seen = Seen;

    fn name(&self) -> &'static str {
        "get_split"
    }

    fn expected(&self) -> Seen {
        original::split(&self.bytes, self.count).expect("a count that the original is built for").into()
    }

    fn port(&self) -> Seen {
        Seen::port(self)
    }

    fn smaller(&self) -> impl Iterator<Item = Self> {
        let shorter = cuts(self.bytes.len()).map(|cut| Split { bytes: without(&self.bytes, &cut), count: self.count });
        let lower = less(self.count).map(|count| Split { bytes: self.bytes.clone(), count });
        shorter.chain(lower)
    }

    fn request(&self) -> String {
        format!("split {} {}", hex(&self.bytes), self.count)
    }

    fn show(&self, seen: &Seen) -> String {
        format!("{}   words {}", split_line(&self.bytes, &seen.answer()), seen.raw())
    }
}

impl Recorded for Split {
    fn entries(&self) -> Vec<Entry<'_>> {
        let answer = self.expected().answer();
        vec![Entry { call: self.name(), at: 0, offset: 0, arg: self.count, answer, bytes: &self.bytes }]
    }
}
