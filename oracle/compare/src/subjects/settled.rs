//! A save of which there is nothing to rescue: it comes out byte for byte, and zeros are told.

use crate::case::Case;
use crate::rescued::rescued;
use crate::shrink::simpler;
use protocol::hex;
use std::borrow::Cow;

/// It reads to its end, and its containers balance.
pub struct Settled<'a>(Cow<'a, [u8]>);

impl<'a> Settled<'a> {
    pub fn new(save: &'a [u8]) -> Settled<'a> {
        Settled(Cow::Borrowed(save))
    }
}

impl Case for Settled<'_> {
    /// Code, words and output.
    type Seen = (u32, Vec<u64>, Vec<u8>);

    fn name(&self) -> &'static str {
        "rescue, nothing to do"
    }

    fn expected(&self) -> Self::Seen {
        (0, vec![self.0.len() as u64, 0, 0, 0], self.0.to_vec())
    }

    /// With as much room as the save has.
    fn port(&self) -> Self::Seen {
        let mut out = vec![0xa5; self.0.len()];
        let answer = port::answer(|words| port::rescue(&self.0, &mut out, words));
        (answer.code, answer.words[..4].to_vec(), out)
    }

    fn smaller(&self) -> impl Iterator<Item = Self> {
        let shorter = |save: &Vec<u8>| save.len() < self.0.len();
        simpler(&self.0).map(|bytes| rescued(&bytes).save).filter(shorter).map(|save| Settled(Cow::Owned(save)))
    }

    fn request(&self) -> String {
        format!("rescue {} {}", self.0.len(), hex(&self.0))
    }

    fn show(&self, (code, words, out): &Self::Seen) -> String {
        format!("{code} {words:?} {}", hex(out))
    }
}
