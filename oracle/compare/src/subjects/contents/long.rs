//! The list of a save about the longest that there is.

use super::Origin;
use crate::case::Case;
use crate::lent::{Lend, SeenLent, numbers};
use crate::subjects::Limit;
use protocol::{Answer, Span, code};

/// The longest save, and one byte more: the original does not limit it.
pub struct LongSave<'a> {
    pub bytes: &'a [u8],
    /// The entries, unless it is too long.
    pub list: &'a [Span],
}

impl Lend for LongSave<'_> {
    type Unit = u32;

    fn lent(&self) -> Vec<u32> {
        numbers(2 * self.list.len() + 3)
    }

    fn ask(&self, lent: &mut [u32], answer: &mut [u64]) -> u32 {
        port::contents(self.bytes, lent, answer)
    }
}

impl Case for LongSave<'_> {
    type Seen = SeenLent<u32>;

    fn name(&self) -> &'static str {
        Origin::Save.name()
    }

    fn expected(&self) -> SeenLent<u32> {
        if self.bytes.len() > Limit::LONGEST {
            return SeenLent::answered(self, Answer::refused(code::TOO_LONG, 0, self.bytes.len()));
        }
        SeenLent::changed(self, Answer::found(self.list.len(), &[]), self.list.as_flattened())
    }

    fn port(&self) -> SeenLent<u32> {
        SeenLent::port(self)
    }

    fn smaller(&self) -> impl Iterator<Item = Self> {
        std::iter::empty()
    }

    fn request(&self) -> String {
        format!("toc {} of {} bytes", self.list.len() + 1, self.bytes.len())
    }

    fn show(&self, seen: &SeenLent<u32>) -> String {
        seen.raw(self)
    }
}
