//! The fast step on a window.

use crate::case::Case;
use crate::lent::{Lend, SeenLent};
use crate::listed::Listed;
use crate::shrink::{cuts, less, without, zeroed};
use original::FAST_WINDOW;
use protocol::{Answer, code, fast_line, hex};
use std::borrow::Cow;
use std::panic::{catch_unwind, set_hook, take_hook};

#[derive(Clone)]
pub struct Fast<'a> {
    held: Vec<u8>,
    window: Cow<'a, [u8]>,
}

impl<'a> Fast<'a> {
    /// Held bytes other than eight are no question for the original.
    pub fn new(held: &[u8], window: &'a [u8]) -> Fast<'a> {
        Fast { held: held.to_vec(), window: Cow::Borrowed(window) }
    }

    fn with(&self, window: Vec<u8>) -> Fast<'a> {
        Fast { held: self.held.clone(), window: Cow::Owned(window) }
    }
}

impl Lend for Fast<'_> {
    type Unit = u8;

    fn lent(&self) -> Vec<u8> {
        self.held.clone()
    }

    fn ask(&self, lent: &mut [u8], answer: &mut [u64]) -> u32 {
        port::next_token_fast(&self.window, lent, answer)
    }
}

impl Case for Fast<'_> {
    type Seen = SeenLent;

    fn name(&self) -> &'static str {
        "next_token_fast"
    }

    fn expected(&self) -> SeenLent {
        let Ok(held) = self.held.as_slice().try_into() else {
            return SeenLent::untouched(self, code::BAD_ARGUMENT);
        };
        if self.window.len() < FAST_WINDOW {
            return SeenLent::answered(self, Answer::none(0));
        }
        let fast = original::next_token_fast(held, &self.window);
        SeenLent::changed(self, fast.answer(), &fast.held)
    }

    fn port(&self) -> SeenLent {
        SeenLent::port(self)
    }

    fn listed(&self) -> Option<Listed> {
        (self.held.len() == 8 && self.window.len() < FAST_WINDOW).then_some(Listed::ShortWindow)
    }

    fn original(&self) -> Option<String> {
        let held = self.held.as_slice().try_into().ok()?;
        let window = self.window.to_vec();
        let hook = take_hook();
        set_hook(Box::new(|_| {}));
        let stepped = catch_unwind(|| original::next_token_fast(held, &window));
        set_hook(hook);
        Some(match stepped {
            Ok(fast) => fast_line(&fast.answer(), &fast.held),
            Err(_) => "a panic".to_string(),
        })
    }

    fn smaller(&self) -> impl Iterator<Item = Self> {
        let shorter = cuts(self.window.len()).map(|cut| self.with(without(&self.window, &cut)));
        let plainer = zeroed(&self.window).map(|window| self.with(window));
        let fewer = less(self.held.len()).map(|count| Fast { held: self.held[..count].to_vec(), ..self.clone() });
        shorter.chain(plainer).chain(fewer)
    }

    fn request(&self) -> String {
        format!("fast {} {}", hex(&self.held), hex(&self.window))
    }

    fn show(&self, seen: &SeenLent) -> String {
        format!("{}   words {}", fast_line(&seen.seen.answer(), seen.lent()), seen.raw(self))
    }
}
