//! A Lexer call at a place, in an input that begins at an offset.

use crate::case::{Ask, Case, Seen};
use crate::listed::Listed;
use crate::offsets::{Placed, bad_place, in_file, turn};
use crate::record::{Entry, Recorded};
use crate::shrink::{begun, cuts, less, moved, without, zeroed};
use protocol::{Call, hex, lex_line};
use std::borrow::Cow;

pub struct Lex<'a> {
    bytes: Cow<'a, [u8]>,
    at: usize,
    offset: usize,
    call: Call,
}

impl<'a> Lex<'a> {
    pub fn new(bytes: &'a [u8], at: usize, call: Call) -> Lex<'a> {
        Lex { bytes: Cow::Borrowed(bytes), at, offset: 0, call }
    }

    fn with(&self, bytes: Vec<u8>, at: usize) -> Lex<'a> {
        Lex { bytes: Cow::Owned(bytes), at, ..*self }
    }

    fn calling(&self, call: Call) -> Lex<'a> {
        Lex { bytes: self.bytes.clone(), call, ..*self }
    }

    fn shorter(&self) -> impl Iterator<Item = Lex<'a>> {
        cuts(self.bytes.len()).flat_map(|cut| {
            let shorter = self.with(without(&self.bytes, &cut), moved(self.at, &cut));
            begun(self.offset, cut.len()).map(move |offset| shorter.at_offset(offset))
        })
    }

    /// An Open at the cursor made a Close, so that a skip ends there.
    fn closed(&self) -> Option<Lex<'a>> {
        let opens = self.bytes.get(self.at..)?.starts_with(&[3, 0]);
        opens.then(|| {
            let mut bytes = self.bytes.to_vec();
            bytes[self.at] = 4;
            self.with(bytes, self.at)
        })
    }

    fn plainer_call(&self) -> impl Iterator<Item = Lex<'a>> {
        let count = if let Call::ReadBytes(count) = self.call { count } else { 0 };
        less(count).map(|count| self.calling(Call::ReadBytes(count)))
    }
}

impl<'a> Placed for Lex<'a> {
    #[inline]
    fn len(&self) -> usize {
        self.bytes.len()
    }

    #[inline]
    fn turn(&self) -> usize {
        turn(&self.bytes, self.at).wrapping_add(self.name().len())
    }

    #[inline]
    fn at_offset(&self, offset: usize) -> Lex<'a> {
        Lex { bytes: self.bytes.clone(), offset, ..*self }
    }
}

impl Ask for Lex<'_> {
    #[inline]
    fn ask(&self, answer: &mut [u64]) -> u32 {
        port::lex(&self.bytes, self.at, self.offset, self.call, answer)
    }
}

impl Case for Lex<'_> {
    type Seen = Seen;

    #[inline]
    fn name(&self) -> &'static str {
        self.call.name()
    }

    #[inline]
    fn expected(&self) -> Seen {
        let Lex { bytes, at, offset, call } = self;
        let answer = bad_place(bytes, *at, *offset).or_else(|| original::lex_in_file(bytes, *at, *offset, *call));
        answer.expect("an offset and a place that fit").into()
    }

    #[inline]
    fn port(&self) -> Seen {
        Seen::port(self)
    }

    #[inline]
    fn is_in_file(&self) -> bool {
        self.offset > 0
    }

    #[inline]
    fn listed(&self) -> Option<Listed> {
        Listed::of_cursor(&self.bytes, self.at, self.offset)
    }

    fn smaller(&self) -> impl Iterator<Item = Self> {
        let earlier = less(self.at).map(|at| self.with(self.bytes.to_vec(), at));
        let sooner = less(self.offset).map(|offset| self.at_offset(offset));
        let earlier = earlier.chain(sooner);
        let plainer = zeroed(&self.bytes).map(|bytes| self.with(bytes, self.at));
        self.closed().into_iter().chain(self.shorter()).chain(earlier).chain(self.plainer_call()).chain(plainer)
    }

    fn request(&self) -> String {
        format!("{}lex {} {} {}", in_file(self.offset), hex(&self.bytes), self.at, self.call)
    }

    fn show(&self, seen: &Seen) -> String {
        let answer = seen.answer();
        let position = answer.words[0].wrapping_add(self.offset as u64);
        format!("{}   words {}", lex_line(&self.bytes, self.call, &answer, position), seen.raw())
    }
}

impl Recorded for Lex<'_> {
    fn entries(&self) -> Vec<Entry<'_>> {
        let arg = match self.call {
            Call::ReadBytes(count) => count,
            Call::SkipValue(id) => id.into(),
            _ => 0,
        };
        let answer = self.expected().answer();
        vec![Entry { call: self.name(), at: self.at, offset: self.offset, arg, answer, bytes: &self.bytes }]
    }
}
