//! A token in each spelling, and why a token has none.

use crate::shortest::shortest;
use protocol::{Spelling, Token, code};

/// The code of a kind of which the original reads back all that it writes: no answer of the port is like it.
const NO_REASON: u32 = u32::MAX;

/// What the original writes, if it reads back as the token; or the shortest that it reads as the token. Where there is no
/// such spelling, the refusal of tokens of its kind.
pub fn spell(spelling: Spelling, token: &Token) -> Result<Vec<u8>, u32> {
    let found = match spelling {
        Spelling::Normal => Some(original::spelling(token)).filter(|written| original::reads_back(token, written)),
        Spelling::Shortest => shortest(token),
    };
    found.ok_or_else(|| reason(token))
}

/// The room that a token wants in either spelling.
pub fn need(token: &Token) -> usize {
    let shortest = spell(Spelling::Shortest, token).map_or(0, |spelling| spelling.len());
    original::spelling(token).len().max(shortest)
}

fn reason(token: &Token) -> u32 {
    match token {
        Token::Quoted(_) | Token::Unquoted(_) => code::LONG_STRING,
        Token::Lookup(_) => code::WIDE_LOOKUP,
        Token::Id(_) => code::RESERVED_ID,
        _ => NO_REASON,
    }
}
