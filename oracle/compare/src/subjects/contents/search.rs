//! The entry that holds a position, by a list.

use super::numbers::{in_words, simpler};
use crate::case::{Ask, Case, ROOM, Seen};
use crate::contents::{holding, in_order};
use crate::shrink::{cuts, less, moved, without, zeroed};
use protocol::{Answer, Span, code, hex, search_line};
use std::borrow::Cow;

/// The list of a save, made by the port, is searched: the answer is that of a walk over the save alone.
#[derive(Clone)]
pub struct Holding<'a> {
    bytes: Cow<'a, [u8]>,
    position: u64,
}

impl<'a> Holding<'a> {
    pub fn new(bytes: &'a [u8], position: u64) -> Holding<'a> {
        Holding { bytes: Cow::Borrowed(bytes), position }
    }
}

impl Case for Holding<'_> {
    type Seen = Seen;

    fn name(&self) -> &'static str {
        "contents, searched"
    }

    fn expected(&self) -> Seen {
        holding(&self.bytes, self.position).map_or_else(Seen::from, |held| held_by(held).into())
    }

    /// With room for as many entries as there can be: each has an id and an Equal or Open.
    fn port(&self) -> Seen {
        let mut list = vec![0; self.bytes.len() / 2];
        let filled = Seen::of(ROOM, |answer| port::contents(&self.bytes, &mut list, answer));
        if filled.code != code::ANSWERED {
            return filled;
        }
        let list = &list[..2 * filled.words[0] as usize];
        Seen::of(ROOM, |answer| port::contents_search(list, self.position, answer))
    }

    fn smaller(&self) -> impl Iterator<Item = Self> {
        let with = |bytes, position| Holding { bytes: Cow::Owned(bytes), position };
        let shorter = cuts(self.bytes.len())
            .map(move |cut| with(without(&self.bytes, &cut), moved(self.position as usize, &cut) as u64));
        let lower = less(self.position as usize).map(|position| Holding { position: position as u64, ..self.clone() });
        let plainer = zeroed(&self.bytes).map(move |bytes| with(bytes, self.position));
        shorter.chain(lower).chain(plainer)
    }

    fn request(&self) -> String {
        format!("the list of: toc {} {}, searched for {}", self.bytes.len() / 4, hex(&self.bytes), self.position)
    }

    fn show(&self, seen: &Seen) -> String {
        format!("{}   words {}", search_line(&seen.answer()), seen.raw())
    }
}

/// Any list of numbers is searched.
#[derive(Clone)]
pub struct Search<'a> {
    list: Cow<'a, [u32]>,
    position: u64,
}

impl<'a> Search<'a> {
    pub fn new(list: &'a [u32], position: u64) -> Search<'a> {
        Search { list: Cow::Borrowed(list), position }
    }
}

impl Ask for Search<'_> {
    fn ask(&self, answer: &mut [u64]) -> u32 {
        port::contents_search(&self.list, self.position, answer)
    }
}

impl Case for Search<'_> {
    type Seen = Seen;

    fn name(&self) -> &'static str {
        "contents_search"
    }

    fn expected(&self) -> Seen {
        let Some(list) = in_order(&self.list) else {
            return Answer::bad_index().into();
        };
        let holds = |[start, end]: &Span| (u64::from(*start)..u64::from(*end)).contains(&self.position);
        held_by(list.iter().position(holds)).into()
    }

    fn port(&self) -> Seen {
        Seen::port(self)
    }

    fn smaller(&self) -> impl Iterator<Item = Self> {
        let fewer = simpler(&self.list).map(|list| Search { list: Cow::Owned(list), ..*self });
        let lower = less(self.position as usize).map(|position| Search { position: position as u64, ..self.clone() });
        fewer.chain(lower)
    }

    fn request(&self) -> String {
        format!("toc_search {} {}", in_words(&self.list), self.position)
    }

    fn show(&self, seen: &Seen) -> String {
        format!("{}   words {}", search_line(&seen.answer()), seen.raw())
    }
}

fn held_by(entry: Option<usize>) -> Answer {
    entry.map_or(Answer::none(0), |number| Answer::found(number, &[]))
}
