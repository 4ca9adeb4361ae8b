//! What a save that is shortened keeps: its tokens. It is never longer than it was.

use crate::case::Case;
use crate::shrink::simpler;
use protocol::{Spelling, Token, code, hex};
use std::borrow::Cow;

pub struct Kept<'a>(Cow<'a, [u8]>);

impl<'a> Kept<'a> {
    pub fn new(bytes: &'a [u8]) -> Kept<'a> {
        Kept(Cow::Borrowed(bytes))
    }
}

/// The original's tokens; nothing where they cannot be read to the end.
fn tokens(bytes: &[u8]) -> Option<Vec<Token>> {
    let (tokens, end) = original::tokens(bytes);
    (end.code == code::ANSWERED).then(|| tokens.into_iter().map(|(_, token)| token).collect())
}

impl Case for Kept<'_> {
    type Seen = Option<Vec<Token>>;

    fn name(&self) -> &'static str {
        "shorten, read again"
    }

    fn expected(&self) -> Self::Seen {
        tokens(&self.0)
    }

    /// With as much room as the save has.
    fn port(&self) -> Self::Seen {
        let mut out = vec![0; self.0.len()];
        let answer = port::answer(|words| port::respell(Spelling::Shortest, &self.0, &mut out, words));
        if answer.code == code::ANSWERED { tokens(&out[..answer.words[0] as usize]) } else { None }
    }

    fn smaller(&self) -> impl Iterator<Item = Self> {
        simpler(&self.0).map(|bytes| Kept(Cow::Owned(bytes)))
    }

    fn request(&self) -> String {
        format!("the tokens of: {} {} {}", Spelling::Shortest.of_save(), self.0.len(), hex(&self.0))
    }

    fn show(&self, seen: &Self::Seen) -> String {
        match seen {
            Some(tokens) => format!("{tokens:?}"),
            None => "none".to_string(),
        }
    }
}
