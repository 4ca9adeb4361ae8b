//! A list as a file.

use super::numbers::{in_words, simpler};
use crate::case::Case;
use crate::contents::{TOO_MANY, file, file_len, in_order};
use crate::lent::{Lend, SeenLent, output, shortened};
use crate::shrink::less;
use protocol::{Answer, code, output_line};
use std::borrow::Cow;

/// Any list of numbers as a file, in an output of so many bytes.
#[derive(Clone)]
pub struct Written<'a> {
    list: Cow<'a, [u32]>,
    room: usize,
}

impl<'a> Written<'a> {
    pub fn new(list: &'a [u32], room: usize) -> Written<'a> {
        Written { list: Cow::Borrowed(list), room }
    }
}

impl Lend for Written<'_> {
    type Unit = u8;

    fn lent(&self) -> Vec<u8> {
        output(self.room)
    }

    fn ask(&self, lent: &mut [u8], answer: &mut [u64]) -> u32 {
        port::contents_write(&self.list, lent, answer)
    }
}

impl Case for Written<'_> {
    type Seen = SeenLent;

    fn name(&self) -> &'static str {
        "contents_write"
    }

    fn expected(&self) -> SeenLent {
        let refused = |code, number| SeenLent::answered(self, Answer::refused(code, 0, number));
        let Some(list) = in_order(&self.list) else {
            return SeenLent::answered(self, Answer::bad_index());
        };
        match file_len(list) {
            _ if list.len() >= TOO_MANY => refused(code::TOO_LONG, list.len()),
            need if self.room < need => refused(code::NO_ROOM, need),
            need => SeenLent::changed(self, Answer::found(need, &[]), &file(list)),
        }
    }

    fn port(&self) -> SeenLent {
        SeenLent::port(self)
    }

    fn smaller(&self) -> impl Iterator<Item = Self> {
        let fewer = simpler(&self.list).map(|list| Written { list: Cow::Owned(list), ..*self });
        let rooms = less(self.room).map(|room| Written { room, ..self.clone() });
        fewer.chain(rooms)
    }

    fn request(&self) -> String {
        format!("toc_write {} {}", self.room, in_words(&self.list))
    }

    fn show(&self, seen: &SeenLent) -> String {
        let line = output_line(&seen.seen.answer(), &[]);
        let out = shortened(seen.lent());
        format!("{line}, in the output {out}   words {}", seen.raw(self))
    }
}
