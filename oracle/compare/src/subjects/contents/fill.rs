//! A list filled from a save or from a file.

use crate::case::Case;
use crate::contents::{entries, list_of};
use crate::lent::{Lend, SeenLent, numbers};
use crate::shrink::{less, simpler};
use protocol::{Answer, Span, UNTOUCHED, code, contents_line, hex};
use std::borrow::Cow;
use std::cell::OnceCell;

/// What a list is filled from.
#[derive(Clone, Copy, Debug, PartialEq, Eq)]
pub enum Origin {
    Save,
    File,
}

impl Origin {
    pub const ALL: [Origin; 2] = [Origin::Save, Origin::File];

    /// The port's function.
    pub fn name(self) -> &'static str {
        match self {
            Origin::Save => "contents",
            Origin::File => "contents_read",
        }
    }

    fn request(self) -> &'static str {
        match self {
            Origin::Save => "toc",
            Origin::File => "toc_read",
        }
    }

    fn by_port(self, bytes: &[u8], list: &mut [u32], answer: &mut [u64]) -> u32 {
        match self {
            Origin::Save => port::contents(bytes, list, answer),
            Origin::File => port::contents_read(bytes, list, answer),
        }
    }

    fn expected(self, bytes: &[u8]) -> Result<Vec<Span>, Answer> {
        match self {
            Origin::Save => entries(bytes),
            Origin::File => list_of(bytes).ok_or_else(Answer::bad_index),
        }
    }
}

/// A list of so many numbers is filled.
#[derive(Clone)]
pub struct Fill<'a> {
    origin: Origin,
    bytes: Cow<'a, [u8]>,
    numbers: usize,
    /// What it should be filled with, once it was asked for.
    made: OnceCell<Result<Vec<Span>, Answer>>,
}

impl<'a> Fill<'a> {
    pub fn new(origin: Origin, bytes: &'a [u8], numbers: usize) -> Fill<'a> {
        Fill { origin, bytes: Cow::Borrowed(bytes), numbers, made: OnceCell::new() }
    }

    pub fn with_numbers(&self, numbers: usize) -> Fill<'a> {
        Fill { numbers, ..self.clone() }
    }

    fn made(&self) -> &Result<Vec<Span>, Answer> {
        self.made.get_or_init(|| self.origin.expected(&self.bytes))
    }

    /// The entries; none where they are refused.
    pub fn entries(&self) -> &[Span] {
        self.made().as_deref().unwrap_or_default()
    }

    /// A number that is left over is never touched.
    fn capacity(&self) -> usize {
        self.numbers / 2
    }

    /// The answer line, with the records that are as they were before the call.
    pub fn line(&self, seen: &SeenLent<u32>) -> String {
        let before = numbers(self.numbers);
        let records = seen.lent().as_chunks().0.iter().zip(before.as_chunks().0);
        let records = records.map(|(after, before)| if after == before { UNTOUCHED } else { *after });
        contents_line(&seen.seen.answer(), &records.collect::<Vec<Span>>())
    }
}

impl Lend for Fill<'_> {
    type Unit = u32;

    fn lent(&self) -> Vec<u32> {
        numbers(self.numbers)
    }

    fn ask(&self, lent: &mut [u32], answer: &mut [u64]) -> u32 {
        self.origin.by_port(&self.bytes, lent, answer)
    }
}

impl Case for Fill<'_> {
    type Seen = SeenLent<u32>;

    fn name(&self) -> &'static str {
        self.origin.name()
    }

    fn expected(&self) -> SeenLent<u32> {
        match self.made() {
            Err(refused) => SeenLent::answered(self, *refused),
            Ok(list) if list.len() > self.capacity() => {
                SeenLent::answered(self, Answer::refused(code::LIST_FULL, 0, list.len()))
            }
            Ok(list) => SeenLent::changed(self, Answer::found(list.len(), &[]), list.as_flattened()),
        }
    }

    fn port(&self) -> SeenLent<u32> {
        SeenLent::port(self)
    }

    fn smaller(&self) -> impl Iterator<Item = Self> {
        let with = |bytes| Fill { bytes: Cow::Owned(bytes), made: OnceCell::new(), ..*self };
        let fewer = less(self.numbers).map(|numbers| self.with_numbers(numbers));
        simpler(&self.bytes).map(with).chain(fewer)
    }

    fn request(&self) -> String {
        let odd = if self.numbers.is_multiple_of(2) { "" } else { " and a number more in the list" };
        format!("{} {} {}{odd}", self.origin.request(), self.capacity(), hex(&self.bytes))
    }

    fn show(&self, seen: &SeenLent<u32>) -> String {
        format!("{}   words {}", self.line(seen), seen.raw(self))
    }
}
