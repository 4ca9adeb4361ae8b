//! Saves about the longest that the calls on a whole save take, which the original does not limit.

use super::Form;
use crate::case::Case;
use crate::lent::{Lend, SeenLent};
use protocol::{Answer, code};

pub struct Limit<'a> {
    pub form: Form,
    /// Unless they are too long, their form is as long as they are.
    pub bytes: &'a [u8],
}

impl Limit<'_> {
    pub const LONGEST: usize = 1 << 31;
}

impl Lend for Limit<'_> {
    type Unit = u8;

    fn lent(&self) -> Vec<u8> {
        Vec::new()
    }

    fn ask(&self, lent: &mut [u8], answer: &mut [u64]) -> u32 {
        self.form.by_port(self.bytes, lent, answer)
    }
}

impl Case for Limit<'_> {
    type Seen = SeenLent;

    fn name(&self) -> &'static str {
        self.form.name()
    }

    fn expected(&self) -> SeenLent {
        let code = if self.bytes.len() <= Limit::LONGEST { code::NO_ROOM } else { code::TOO_LONG };
        SeenLent::answered(self, Answer::refused(code, 0, self.bytes.len()))
    }

    fn port(&self) -> SeenLent {
        SeenLent::port(self)
    }

    fn smaller(&self) -> impl Iterator<Item = Self> {
        std::iter::empty()
    }

    fn request(&self) -> String {
        format!("{} on {} bytes without room", self.name(), self.bytes.len())
    }

    fn show(&self, seen: &SeenLent) -> String {
        seen.raw(self)
    }
}
