//! Many calls on one input.

use crate::offsets::at_some;
use crate::run::Run;
use crate::subjects::{Count, Lex, Text};
use protocol::{Call, code};
use saves::RESERVED;

/// Those that read or skip a whole token.
pub const TOKENS: [Call; 4] = [Call::ReadToken, Call::NextToken, Call::PeekToken, Call::SkipContainer];

/// The id that ends at a place, as if it had just been read.
fn id_before(bytes: &[u8], at: usize) -> Option<u16> {
    let id = bytes.get(at.checked_sub(2)?..at)?;
    Some(u16::from_le_bytes(id.try_into().expect("two bytes")))
}

pub fn every_call<'a>(run: &mut Run, bytes: &'a [u8], at: usize, ask: impl Fn(&mut Run, &Lex<'a>)) {
    for call in Call::PLAIN {
        ask(run, &Lex::new(bytes, at, *call));
    }
    let left = bytes.len().saturating_sub(at);
    let wraps = usize::MAX - at;
    for count in [0, 1, left, left + 1, wraps, wraps.wrapping_add(1), usize::MAX] {
        ask(run, &Lex::new(bytes, at, Call::ReadBytes(count)));
    }
    let some = RESERVED[at.wrapping_add(bytes.len()) % RESERVED.len()];
    for id in id_before(bytes, at).into_iter().chain([some]) {
        ask(run, &Lex::new(bytes, at, Call::SkipValue(id)));
    }
}

/// Also past the end.
pub fn every_place<'a>(run: &mut Run, bytes: &'a [u8], ask: impl Fn(&mut Run, &Lex<'a>)) {
    for at in (0..=bytes.len() + 2).chain([usize::MAX]) {
        every_call(run, bytes, at, &ask);
    }
}

pub fn tokens_at_every_place(run: &mut Run, bytes: &[u8]) {
    for at in 0..=bytes.len() {
        for call in TOKENS {
            at_some(run, &Lex::new(bytes, at, call));
        }
        if let Some(id) = id_before(bytes, at) {
            at_some(run, &Lex::new(bytes, at, Call::SkipValue(id)));
        }
    }
}

pub fn every_truncation(run: &mut Run, bytes: &[u8]) {
    for len in 0..bytes.len() {
        tokens_at_every_place(run, &bytes[..len]);
        run.check(&Count::new(&bytes[..len]));
    }
}

/// Token by token to the end or the first refusal.
pub fn along<'a>(run: &mut Run, bytes: &'a [u8], ask: impl Fn(&mut Run, &Lex<'a>)) {
    let mut at = 0;
    run.check(&Count::new(bytes));
    loop {
        for call in [Call::ReadToken, Call::NextToken, Call::PeekToken, Call::PeekId, Call::Remainder] {
            ask(run, &Lex::new(bytes, at, call));
        }
        let read = original::lex(bytes, at, Call::ReadToken).expect("a place in the input");
        if read.code != code::ANSWERED {
            return;
        }
        if let Some(text) = original::text(bytes, at) {
            let start = read.words[2] as usize;
            run.check(&Text::new(bytes, start, text.len()));
            run.check(&Text::new(bytes, start, bytes.len() - start + 1));
        }
        at = read.words[0] as usize;
    }
}
