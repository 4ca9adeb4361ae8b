//! Positions in a file of which the input is a part. The original's input is all that it knows: they are made here from
//! its answers, in FORMAT.md's words. A position grows by the offset of the input's first byte, and nothing else does.

use crate::calls;
use protocol::{Answer, Call, code};

/// Nothing where the original cannot stand, or where the end of the input has no position in the file.
pub fn lex(bytes: &[u8], at: usize, offset: usize, call: Call) -> Option<Answer> {
    fits(bytes, offset).then_some(())?;
    calls::lex(bytes, at, call).map(|answer| grown(answer, offset, call == Call::Position))
}

/// The same.
pub fn find_key(bytes: &[u8], at: usize, offset: usize, id: u16) -> Option<Answer> {
    fits(bytes, offset).then_some(())?;
    calls::find_key(bytes, at, id).map(|answer| grown(answer, offset, true))
}

/// Whether offset and length together are a number.
#[inline]
pub fn fits(bytes: &[u8], offset: usize) -> bool {
    offset.checked_add(bytes.len()).is_some()
}

/// The second word is a position where reading is refused, and where it is the value that was asked for.
#[inline]
pub fn grown(mut answer: Answer, offset: usize, asked: bool) -> Answer {
    let position = match answer.code {
        code::EOF | code::INVALID_RGB => true,
        code::ANSWERED => asked,
        _ => false,
    };
    if position {
        answer.words[1] += offset as u64;
    }
    answer
}
