//! An id's kind, and whether it is a plain one.

use crate::case::Case;
use crate::record::{Entry, Recorded};
use protocol::{Answer, WORDS, kind_line};

pub struct Kind(pub u16);

impl Case for Kind {
    type Seen = (u32, bool);

    fn name(&self) -> &'static str {
        "into_kind, is_id"
    }

    fn expected(&self) -> (u32, bool) {
        (original::kind(self.0), original::is_id(self.0))
    }

    fn port(&self) -> (u32, bool) {
        (port::kind(self.0), port::is_id(self.0))
    }

    fn smaller(&self) -> impl Iterator<Item = Self> {
        (0..self.0).map(Kind)
    }

    fn request(&self) -> String {
        format!("kind {:#06x}", self.0)
    }

    fn show(&self, seen: &(u32, bool)) -> String {
        kind_line(seen.0, seen.1)
    }
}

impl Recorded for Kind {
    fn entries(&self) -> Vec<Entry<'_>> {
        let (kind, is_id) = self.expected();
        let entry = |call, code| {
            let answer = Answer { code, words: [0; WORDS] };
            Entry { call, at: 0, offset: 0, arg: self.0.into(), answer, bytes: &[] }
        };
        vec![entry("into_kind", kind), entry("is_id", is_id.into())]
    }
}
