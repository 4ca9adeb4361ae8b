//! The window: the calls on a source, and a source that keeps what each of them is handed.

use crate::answer;
use protocol::{Got, Numbers, Op, STATE_WORDS, Source, State};

/// What a call on a source is handed.
pub struct Lists<'a> {
    pub buffer: &'a mut [u8],
    pub supply: &'a [u8],
    pub schedule: &'a [u32],
    pub state: &'a mut [u64],
}

macro_rules! functions {
    ($($op:pat => $name:ident($($count:ident)?),)*) => {
        unsafe extern "C" {
            $(fn $name(
                buffer: *mut u8,
                buffer_len: usize,
                supply: *const u8,
                supply_len: usize,
                schedule: *const u32,
                schedule_len: usize,
                state: *mut u64,
                state_len: usize,
                $($count: usize,)?
                answer: *mut u64,
                answer_len: usize,
            ) -> u32;)*
        }

        pub fn source(op: Op, lists: &mut Lists, answer: &mut [u64]) -> u32 {
            let (buffer, room) = (lists.buffer.as_mut_ptr(), lists.buffer.len());
            let (supply, bytes) = (lists.supply.as_ptr(), lists.supply.len());
            let (schedule, entries) = (lists.schedule.as_ptr(), lists.schedule.len());
            let (state, words) = (lists.state.as_mut_ptr(), lists.state.len());
            let (lent, most) = (answer.as_mut_ptr(), answer.len());
            match op {
                // SAFETY: all slices live through the call, and the lent ones are apart from each other and from the others.
                $($op => unsafe {
                    $name(buffer, room, supply, bytes, schedule, entries, state, words, $($count,)? lent, most)
                },)*
            }
        }
    };
}

functions! {
    Op::Ensure(count) => stivlaheim_source_ensure_bytes(count),
    Op::Refill => stivlaheim_source_refill(),
    Op::Peek(count) => stivlaheim_source_peek(count),
    Op::Take(count) => stivlaheim_source_take(count),
    Op::TryTake(count) => stivlaheim_source_try_take(count),
    Op::TakeBytes(count) => stivlaheim_source_take_bytes(count),
    Op::TryTakeBytes(count) => stivlaheim_source_try_take_bytes(count),
    Op::Advance(count) => stivlaheim_source_advance(count),
    Op::WindowLen => stivlaheim_source_window_len(),
    Op::Window => stivlaheim_source_window(),
    Op::ReadBstr => stivlaheim_source_read_bstr(),
    Op::ReadLexemeId => stivlaheim_source_read_lexeme_id(),
    Op::PeekLexemeId => stivlaheim_source_peek_lexeme_id(),
    Op::ReadRgb => stivlaheim_source_read_rgb(),
}

unsafe extern "C" {
    fn stivlaheim_source_from_slice(slice: *const u8, len: usize, state: *mut u64, state_len: usize) -> u32;
    fn stivlaheim_source_from_reader(state: *mut u64, state_len: usize) -> u32;
}

/// The state of a new source.
pub fn new_source(source: &Source, state: &mut [u64]) -> u32 {
    let (slice, len) = (source.supply.as_ptr(), source.supply.len());
    let (lent, words) = (state.as_mut_ptr(), state.len());
    if source.streaming {
        // SAFETY: the lent slice lives through the call.
        unsafe { stivlaheim_source_from_reader(lent, words) }
    } else {
        // SAFETY: both slices live through the call, and the lent one is apart from the other.
        unsafe { stivlaheim_source_from_slice(slice, len, lent, words) }
    }
}

/// A source, and its state and buffer between calls.
pub struct Window<'a> {
    source: &'a Source,
    buffer: Vec<u8>,
    state: [u64; STATE_WORDS],
}

impl<'a> Window<'a> {
    /// The state of a new source is what is made of words that are none.
    pub fn new(source: &'a Source) -> Window<'a> {
        let mut state = [u64::MAX; STATE_WORDS];
        if source.given.is_some() {
            state = source.words();
        } else {
            new_source(source, &mut state);
        }
        Window { source, buffer: source.buffer.clone(), state }
    }

    pub fn call(&mut self, op: Op) -> Got {
        let Source { supply, schedule, streaming, .. } = self.source;
        let mut lists = Lists { buffer: &mut self.buffer, supply, schedule, state: &mut self.state };
        let answer = answer(|words| source(op, &mut lists, words));
        Got::of_answer(op, &answer, if *streaming { &self.buffer } else { supply })
    }

    pub fn state(&mut self) -> State {
        let window = match self.call(Op::Window) {
            Got::Part(_, bytes) => bytes,
            _ => Vec::new(),
        };
        let buffer = self.source.streaming.then(|| self.buffer.clone());
        State { numbers: Numbers::of_words(self.state), window, buffer }
    }
}
