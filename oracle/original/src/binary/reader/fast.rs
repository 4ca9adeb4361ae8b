//! next_token_fast, which is private to the reader.

use super::TokenReader;
use protocol::Answer;
use std::hint::black_box;

/// The kind's number and the token's length where the step is fast, and the held bytes after it.
#[derive(Clone, Copy, Debug, PartialEq, Eq)]
pub struct Fast {
    pub token: Option<(u32, usize)>,
    pub held: [u8; 8],
}

impl Fast {
    pub fn answer(&self) -> Answer {
        self.token.map_or(Answer::none(0), |(kind, length)| Answer::found(length, &[kind.into()]))
    }
}

/// The shortest window for which the original's own caller takes the step.
pub const FAST_WINDOW: usize = 16;

/// The step on any window; it panics on a short one that does not hold the token's bytes.
pub fn next_token_fast(held: [u8; 8], window: &[u8]) -> Fast {
    let mut reader = TokenReader::from_slice(window);
    reader.data = held;
    let kind = reader.next_token_fast(window);
    Fast { token: kind.map(|kind| (kind as u32, reader.position())), held: reader.data }
}

/// Steps over a save as the reader's own caller does, as long as the step is fast: where it ends, and the steps.
pub fn step_fast(bytes: &[u8]) -> Answer {
    let mut reader = TokenReader::from_slice(bytes);
    let mut count = 0;
    let mut seen = 0u64;
    loop {
        let window = reader.source.window();
        if window.len() < FAST_WINDOW {
            break;
        }
        // SAFETY: the window lies in `bytes`, which the step does not move.
        let Some(kind) = reader.next_token_fast(unsafe { &*(window as *const [u8]) }) else {
            break;
        };
        count += 1;
        seen = seen.wrapping_add(u64::from_le_bytes(reader.data)).wrapping_add(kind as u64);
    }
    black_box(seen);
    Answer::found(reader.position(), &[count])
}
