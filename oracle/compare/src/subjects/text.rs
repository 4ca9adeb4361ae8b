//! A string token's text: the part of the bytes that its start and length name.

use crate::case::{Ask, Case, Seen};
use crate::listed::Listed;
use crate::record::{Entry, Recorded};
use crate::shrink::{cuts, less, without};
use protocol::{Answer, code, hex};
use std::borrow::Cow;

pub struct Text<'a> {
    bytes: Cow<'a, [u8]>,
    start: usize,
    len: usize,
}

impl<'a> Text<'a> {
    pub fn new(bytes: &'a [u8], start: usize, len: usize) -> Text<'a> {
        Text { bytes: Cow::Borrowed(bytes), start, len }
    }

    fn part(&self) -> Option<&[u8]> {
        self.bytes.get(self.start..self.start.checked_add(self.len)?)
    }
}

impl Ask for Text<'_> {
    fn ask(&self, answer: &mut [u64]) -> u32 {
        port::text(&self.bytes, self.start, self.len, answer)
    }
}

impl Case for Text<'_> {
    type Seen = Seen;

    fn name(&self) -> &'static str {
        "text"
    }

    /// The original's text is that part itself: its token's words come from where the text lies in memory.
    fn expected(&self) -> Seen {
        match self.part() {
            Some(_) => Answer::found(self.start, &[self.start as u64, self.len as u64]).into(),
            None => Answer::refused(code::BAD_PLACE, self.start, self.start).into(),
        }
    }

    fn port(&self) -> Seen {
        Seen::port(self)
    }

    fn listed(&self) -> Option<Listed> {
        self.part().is_none().then_some(Listed::TextPastInput)
    }

    fn smaller(&self) -> impl Iterator<Item = Self> {
        let with = |bytes: Vec<u8>, start, len| Text { bytes: Cow::Owned(bytes), start, len };
        let shorter = cuts(self.bytes.len()).map(move |cut| with(without(&self.bytes, &cut), self.start, self.len));
        let earlier = less(self.start).map(move |start| with(self.bytes.to_vec(), start, self.len));
        let less_text = less(self.len).map(move |len| with(self.bytes.to_vec(), self.start, len));
        shorter.chain(earlier).chain(less_text)
    }

    fn request(&self) -> String {
        format!("text of {} from {} of length {}", hex(&self.bytes), self.start, self.len)
    }

    fn show(&self, seen: &Seen) -> String {
        seen.raw()
    }
}

impl Recorded for Text<'_> {
    fn entries(&self) -> Vec<Entry<'_>> {
        let answer = self.expected().answer();
        vec![Entry { call: self.name(), at: self.start, offset: 0, arg: self.len, answer, bytes: &self.bytes }]
    }
}
