//! Reading a whole save.

use crate::case::{Ask, Case, Seen};
use crate::record::{Entry, Recorded};
use crate::shrink::simpler;
use protocol::hex;
use std::borrow::Cow;

pub struct Count<'a>(Cow<'a, [u8]>);

impl<'a> Count<'a> {
    pub fn new(bytes: &'a [u8]) -> Count<'a> {
        Count(Cow::Borrowed(bytes))
    }
}

impl Ask for Count<'_> {
    fn ask(&self, answer: &mut [u64]) -> u32 {
        port::count_tokens(&self.0, answer)
    }
}

impl Case for Count<'_> {
    type Seen = Seen;

    fn name(&self) -> &'static str {
        "count_tokens"
    }

    fn expected(&self) -> Seen {
        original::count_tokens(&self.0).into()
    }

    fn port(&self) -> Seen {
        Seen::port(self)
    }

    fn smaller(&self) -> impl Iterator<Item = Self> {
        simpler(&self.0).map(|bytes| Count(Cow::Owned(bytes)))
    }

    fn request(&self) -> String {
        format!("count_tokens {}", hex(&self.0))
    }

    fn show(&self, seen: &Seen) -> String {
        seen.raw()
    }
}

impl Recorded for Count<'_> {
    fn entries(&self) -> Vec<Entry<'_>> {
        vec![Entry { call: self.name(), at: 0, offset: 0, arg: 0, answer: self.expected().answer(), bytes: &self.0 }]
    }
}
