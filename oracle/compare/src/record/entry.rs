//! A line of the record.

use crate::case::Case;
use protocol::{Answer, hex};
use std::fmt::{Display, Formatter, Result};

/// The calls by their numbers, from 1. The replay has the same table, so that a new call goes to the end.
pub const CALLS: [&str; 57] = [
    "into_kind",
    "is_id",
    "get_split",
    "text",
    "remainder",
    "read_bytes",
    "read_id",
    "next_id",
    "peek_id",
    "read_token",
    "next_token",
    "peek_token",
    "count_tokens",
    "read_string",
    "read_bool",
    "read_lookup_u8",
    "read_lookup_u16",
    "read_lookup_u24",
    "read_lookup_u32",
    "read_u32",
    "read_u64",
    "read_i32",
    "read_i64",
    "read_f32",
    "read_f64",
    "read_rgb",
    "skip_value",
    "skip_container",
    "write",
    "normalise",
    "list",
    "next_token_fast",
    "source_ensure_bytes",
    "source_refill",
    "source_peek",
    "source_take",
    "source_try_take",
    "source_take_bytes",
    "source_try_take_bytes",
    "source_advance",
    "source_window_len",
    "source_window",
    "source_read_bstr",
    "source_read_lexeme_id",
    "source_peek_lexeme_id",
    "source_read_rgb",
    "source_from_slice",
    "source_from_reader",
    "write_shortest",
    "shorten",
    "find_key",
    "contents",
    "contents_search",
    "contents_write",
    "contents_read",
    "position",
    "rescue",
];

/// A question with the answer that is expected, without the end of its line.
pub struct Entry<'a> {
    pub call: &'static str,
    pub at: usize,
    pub offset: usize,
    pub arg: usize,
    pub answer: Answer,
    pub bytes: &'a [u8],
}

/// A question that can be written down in numbers.
pub trait Recorded: Case {
    fn entries(&self) -> Vec<Entry<'_>>;
}

impl Entry<'_> {
    /// Its place in CALLS.
    pub fn index(&self) -> usize {
        CALLS.iter().position(|name| *name == self.call).expect("a call of the table")
    }
}

impl Display for Entry<'_> {
    fn fmt(&self, f: &mut Formatter<'_>) -> Result {
        let Entry { at, offset, arg, .. } = self;
        write!(f, "{} {at} {offset} {arg} {}", self.index() + 1, self.answer.code)?;
        for word in self.answer.words {
            write!(f, " {word}")?;
        }
        write!(f, " {}", hex(self.bytes))
    }
}
