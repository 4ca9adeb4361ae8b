//! An answer as the C functions give it: a code, and eight words in the lent list.

pub const WORDS: usize = 8;

/// The refusals' numbers, and four more that are none of FORMAT.md's.
pub mod code {
    pub const ANSWERED: u32 = 0;
    pub const EOF: u32 = 1;
    pub const INVALID_RGB: u32 = 2;
    pub const NO_ROOM: u32 = 4;
    pub const BUFFER_TOO_SMALL: u32 = 5;
    pub const READ_FAILED: u32 = 6;
    pub const BAD_PLACE: u32 = 7;
    pub const TOO_LONG: u32 = 8;
    pub const NONE: u32 = 9;
    pub const LIST_FULL: u32 = 10;
    pub const BAD_INDEX: u32 = 11;
    pub const LONG_STRING: u32 = 31;
    pub const WIDE_LOOKUP: u32 = 32;
    pub const RESERVED_ID: u32 = 33;
    pub const SHORT_ANSWER: u32 = 100;
    /// Words that are no token, held bytes that are not eight, or a source's state of too few words or of no source.
    pub const BAD_ARGUMENT: u32 = 101;
}

/// Word 0 is the cursor after the call, the others hold the value or what the refusal carries.
#[derive(Clone, Copy, Debug, PartialEq, Eq)]
pub struct Answer {
    pub code: u32,
    pub words: [u64; WORDS],
}

impl Answer {
    pub fn found(at: usize, value: &[u64]) -> Answer {
        let mut words = [0; WORDS];
        words[0] = at as u64;
        words[1..=value.len()].copy_from_slice(value);
        Answer { code: code::ANSWERED, words }
    }

    pub fn none(at: usize) -> Answer {
        Answer { code: code::NONE, ..Answer::found(at, &[]) }
    }

    pub fn refused(code: u32, at: usize, value: usize) -> Answer {
        Answer { code, ..Answer::found(at, &[value as u64]) }
    }

    /// With the position, and how many bytes the refused read misses.
    pub fn eof(at: usize, position: usize, missing: u64) -> Answer {
        Answer { code: code::EOF, ..Answer::found(at, &[position as u64, missing]) }
    }

    /// The same refusal, with all that it carries, of a call that ends with another cursor.
    pub fn handed_on(mut self, at: usize) -> Answer {
        self.words[0] = at as u64;
        self
    }

    /// A refusal that carries no number.
    pub fn bad_index() -> Answer {
        Answer::refused(code::BAD_INDEX, 0, 0)
    }

    pub fn value(&self) -> &[u64] {
        &self.words[1..]
    }
}
