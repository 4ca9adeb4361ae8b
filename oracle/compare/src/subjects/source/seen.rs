//! A call on a source, and all that it could touch.

use crate::case::{LENT, ROOM, Seen, raw_words};
use crate::lent::BEYOND;
use port::Lists;
use protocol::{Got, Numbers, Op, STATE_WORDS, Source, State};

/// More than the port may change of a state.
pub const STATE_ROOM: usize = STATE_WORDS + 2;

pub type Words = [u64; STATE_ROOM];

/// A state's words, and after them what is left as lent.
pub fn lent_words(words: [u64; STATE_WORDS]) -> Words {
    let mut all = [LENT; STATE_ROOM];
    all[..STATE_WORDS].copy_from_slice(&words);
    all
}

/// A call's answer with the bytes that it names, and after it the state and the buffer with what lies beyond them.
#[derive(Clone, Debug, PartialEq, Eq)]
pub struct SeenCall {
    seen: Seen,
    part: Vec<u8>,
    state: Words,
    buffer: Vec<u8>,
}

impl SeenCall {
    pub fn expected(source: &Source, got: Got, numbers: Numbers, buffer: &[u8]) -> SeenCall {
        SeenCall {
            seen: got.answer(numbers.position).into(),
            part: part(got),
            state: lent_words(numbers.words(source.streaming)),
            buffer: [buffer, &BEYOND].concat(),
        }
    }

    /// The answer in the protocol's terms, and the state with the window that the next call names.
    pub fn told(&self, op: Op, window: &SeenCall, streaming: bool) -> (Got, State) {
        let got = match Got::of_answer(op, &self.seen.answer(), &[]) {
            Got::Part(start, _) => Got::Part(start, self.part.clone()),
            got => got,
        };
        let words = *self.state.first_chunk().expect("a state's words");
        let buffer = streaming.then(|| self.buffer[..self.buffer.len() - BEYOND.len()].to_vec());
        (got, State { numbers: Numbers::of_words(words), window: window.part.clone(), buffer })
    }

    /// Code and words, and the state's words.
    pub fn raw(&self) -> String {
        let beyond = if self.buffer.ends_with(&BEYOND) { "" } else { ", and bytes beyond the buffer changed" };
        format!("{} state {}{beyond}", self.seen.raw(), raw_words(&self.state))
    }
}

fn part(got: Got) -> Vec<u8> {
    match got {
        Got::Part(_, bytes) => bytes,
        _ => Vec::new(),
    }
}

/// What the port is lent from call to call.
pub struct Lent<'a> {
    source: &'a Source,
    state: Words,
    buffer: Vec<u8>,
}

impl<'a> Lent<'a> {
    /// The state of a new source is what is made of words that are none.
    pub fn new(source: &'a Source) -> Lent<'a> {
        let mut state = [LENT; STATE_ROOM];
        if source.given.is_some() {
            state = lent_words(source.words());
        } else {
            port::new_source(source, &mut state);
        }
        Lent::with_state(source, state)
    }

    pub fn with_state(source: &'a Source, state: Words) -> Lent<'a> {
        Lent { source, state, buffer: [&source.buffer[..], &BEYOND].concat() }
    }

    pub fn call(&mut self, op: Op) -> SeenCall {
        self.call_with(op, STATE_ROOM, ROOM)
    }

    /// So many words of the state and of the answer list are handed over.
    pub fn call_with(&mut self, op: Op, state_room: usize, room: usize) -> SeenCall {
        let Source { supply, schedule, streaming, .. } = self.source;
        let end = self.buffer.len() - BEYOND.len();
        let buffer = &mut self.buffer[..end];
        let mut lists = Lists { buffer, supply, schedule, state: &mut self.state[..state_room] };
        let seen = Seen::of(room, |answer| port::source(op, &mut lists, answer));
        let held = if *streaming { &self.buffer[..end] } else { supply };
        let part = part(Got::of_answer(op, &seen.answer(), held));
        SeenCall { seen, part, state: self.state, buffer: self.buffer.clone() }
    }

    /// A call that changes nothing, not even the answer list.
    pub fn untouched(&self, code: u32) -> SeenCall {
        SeenCall { seen: Seen::untouched(code), part: Vec::new(), state: self.state, buffer: self.buffer.clone() }
    }
}
