//! The first key that is a plain id, from a place on.

use crate::case::{Ask, Case, Seen};
use crate::keys::keys;
use crate::listed::Listed;
use crate::offsets::{Placed, bad_place, in_file, turn};
use crate::record::{Entry, Recorded};
use crate::shrink::{begun, cuts, less, moved, without, zeroed};
use protocol::{Answer, Token, code, find_line, hex};
use std::borrow::Cow;

pub struct Find<'a> {
    bytes: Cow<'a, [u8]>,
    at: usize,
    offset: usize,
    id: u16,
}

impl<'a> Find<'a> {
    pub fn new(bytes: &'a [u8], at: usize, id: u16) -> Find<'a> {
        Find { bytes: Cow::Borrowed(bytes), at, offset: 0, id }
    }

    fn with(&self, bytes: Vec<u8>, at: usize) -> Find<'a> {
        Find { bytes: Cow::Owned(bytes), at, ..*self }
    }
}

impl<'a> Placed for Find<'a> {
    fn len(&self) -> usize {
        self.bytes.len()
    }

    fn turn(&self) -> usize {
        turn(&self.bytes, self.at).wrapping_add(self.id.into())
    }

    fn at_offset(&self, offset: usize) -> Find<'a> {
        Find { bytes: self.bytes.clone(), offset, ..*self }
    }
}

impl Ask for Find<'_> {
    fn ask(&self, answer: &mut [u64]) -> u32 {
        port::find_key(&self.bytes, self.at, self.offset, self.id, answer)
    }
}

impl Case for Find<'_> {
    type Seen = Seen;

    fn name(&self) -> &'static str {
        "find_key"
    }

    /// Of the keys before the first refusal the first that is the id; otherwise the refusal; otherwise none.
    fn expected(&self) -> Seen {
        let Find { bytes, at, offset, id } = self;
        if let Some(refused) = bad_place(bytes, *at, *offset) {
            return refused.into();
        }
        let (tokens, end) = original::tokens(&bytes[*at..]);
        let key = keys(&tokens).find(|(_, token)| *token == Token::Id(*id));
        let answer = match key {
            Some((place, _)) => Answer::found(*at, &[(at + place) as u64]),
            None if end.code == code::ANSWERED => Answer::none(*at),
            None => {
                let mut refused = end.handed_on(*at);
                refused.words[1] += *at as u64;
                refused
            }
        };
        original::grown(answer, *offset, true).into()
    }

    fn port(&self) -> Seen {
        Seen::port(self)
    }

    fn is_in_file(&self) -> bool {
        self.offset > 0
    }

    fn listed(&self) -> Option<Listed> {
        Listed::of_cursor(&self.bytes, self.at, self.offset)
    }

    fn smaller(&self) -> impl Iterator<Item = Self> {
        let shorter = cuts(self.bytes.len()).flat_map(|cut| {
            let shorter = self.with(without(&self.bytes, &cut), moved(self.at, &cut));
            begun(self.offset, cut.len()).map(move |offset| shorter.at_offset(offset))
        });
        let earlier = less(self.at).map(|at| self.with(self.bytes.to_vec(), at));
        let sooner = less(self.offset).map(|offset| self.at_offset(offset));
        let plainer = zeroed(&self.bytes).map(|bytes| self.with(bytes, self.at));
        shorter.chain(earlier).chain(sooner).chain(plainer)
    }

    fn request(&self) -> String {
        format!("{}find {} {} {:#06x}", in_file(self.offset), hex(&self.bytes), self.at, self.id)
    }

    fn show(&self, seen: &Seen) -> String {
        format!("{}   words {}", find_line(&seen.answer()), seen.raw())
    }
}

impl Recorded for Find<'_> {
    fn entries(&self) -> Vec<Entry<'_>> {
        let answer = self.expected().answer();
        let (call, arg) = (self.name(), self.id.into());
        vec![Entry { call, at: self.at, offset: self.offset, arg, answer, bytes: &self.bytes }]
    }
}
