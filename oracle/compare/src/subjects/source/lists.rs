//! Lists that are too short for a call on a source, states that name no kind of source, and the states of new sources.

use super::seen::{Lent, STATE_ROOM, SeenCall, Words, lent_words};
use crate::case::{Case, LENT, raw_words};
use protocol::{Op, STATE_WORDS, Source, WORDS, code, hex};

/// A call with too few words of the answer list or of the state, or with a state whose sixth word is over 1.
#[derive(Clone)]
pub struct BadLists<'a> {
    pub op: Op,
    pub source: &'a Source,
    pub state: Words,
    pub state_room: usize,
    pub room: usize,
}

impl BadLists<'_> {
    fn lent(&self) -> Lent<'_> {
        Lent::with_state(self.source, self.state)
    }
}

impl Case for BadLists<'_> {
    type Seen = SeenCall;

    fn name(&self) -> &'static str {
        if self.room < WORDS { "answer list too short" } else { "state too short, or of no source" }
    }

    fn expected(&self) -> SeenCall {
        self.lent().untouched(if self.room < WORDS { code::SHORT_ANSWER } else { code::BAD_ARGUMENT })
    }

    fn port(&self) -> SeenCall {
        self.lent().call_with(self.op, self.state_room, self.room)
    }

    fn smaller(&self) -> impl Iterator<Item = Self> {
        let rooms = (0..self.room.min(WORDS)).map(|room| BadLists { room, ..self.clone() });
        rooms.chain((0..self.state_room.min(STATE_WORDS)).map(|state_room| BadLists { state_room, ..self.clone() }))
    }

    fn request(&self) -> String {
        let (state, supply) = (raw_words(&self.state[..self.state_room]), hex(&self.source.supply));
        format!("source in state {state} with supply {supply} : {} with {} words lent", self.op, self.room)
    }

    fn show(&self, seen: &SeenCall) -> String {
        seen.raw()
    }
}

/// The state of a new source in a list of so many words.
pub struct NewSource<'a> {
    pub source: &'a Source,
    pub state_room: usize,
}

impl Case for NewSource<'_> {
    type Seen = (u32, Words);

    fn name(&self) -> &'static str {
        if self.source.streaming { "source from_reader" } else { "source from_slice" }
    }

    fn expected(&self) -> (u32, Words) {
        if self.state_room < STATE_WORDS {
            return (code::BAD_ARGUMENT, [LENT; STATE_ROOM]);
        }
        let numbers = original::Window::new(self.source).numbers();
        (code::ANSWERED, lent_words(numbers.words(self.source.streaming)))
    }

    fn port(&self) -> (u32, Words) {
        let mut state = [LENT; STATE_ROOM];
        (port::new_source(self.source, &mut state[..self.state_room]), state)
    }

    fn smaller(&self) -> impl Iterator<Item = Self> {
        (0..self.state_room).map(|state_room| NewSource { state_room, ..*self })
    }

    fn request(&self) -> String {
        format!("{} of {} bytes with {} words lent", self.name(), self.source.supply.len(), self.state_room)
    }

    fn show(&self, (code, words): &(u32, Words)) -> String {
        format!("{code} {}", raw_words(words))
    }
}
