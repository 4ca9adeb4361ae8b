//! An answer list of fewer than eight words: nothing is changed, and nothing of what else is lent.

use crate::case::Case;
use crate::lent::{Lend, SeenLent};
use protocol::code;

pub struct Short<'a, C> {
    pub case: &'a C,
    pub room: usize,
}

impl<C: Case + Lend> Case for Short<'_, C> {
    type Seen = SeenLent<C::Unit>;

    fn name(&self) -> &'static str {
        "answer list too short"
    }

    fn expected(&self) -> SeenLent<C::Unit> {
        SeenLent::untouched(self.case, code::SHORT_ANSWER)
    }

    fn port(&self) -> SeenLent<C::Unit> {
        SeenLent::of_port(self.case, self.room)
    }

    fn smaller(&self) -> impl Iterator<Item = Self> {
        (0..self.room).map(|room| Short { case: self.case, room })
    }

    fn request(&self) -> String {
        format!("{} with {} words lent", self.case.request(), self.room)
    }

    fn show(&self, seen: &SeenLent<C::Unit>) -> String {
        seen.raw(self.case)
    }
}
