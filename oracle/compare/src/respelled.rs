//! A save with each token in one spelling, from the original's tokens.

use crate::spelling::spell;
use protocol::{Answer, Spelling, code};

/// The first refusal in file order; a token that has no spelling is one.
pub fn respelled(spelling: Spelling, bytes: &[u8]) -> Result<Vec<u8>, Answer> {
    let (tokens, end) = original::tokens(bytes);
    let mut form = Vec::new();
    for (at, token) in tokens {
        form.extend(spell(spelling, &token).map_err(|code| Answer::refused(code, 0, at))?);
    }
    match end.code {
        code::ANSWERED => Ok(form),
        _ => Err(end.handed_on(0)),
    }
}
