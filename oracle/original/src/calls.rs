//! get_split, ids and kinds, and the Lexer's calls.

use crate::binary::{LexError, LexemeId, Lexer, LexerError, Token};
use crate::counted::counted;
use crate::missing;
use crate::util::get_split;
use protocol::{Answer, Call, Colour, Span, code};
use std::hint::black_box;
use std::mem::take;

pub fn kind(id: u16) -> u32 {
    LexemeId::new(id).into_kind() as u32
}

pub fn is_id(id: u16) -> bool {
    LexemeId::new(id).is_id()
}

/// Nothing where the count is not at hand as a constant.
pub fn split(bytes: &[u8], count: usize) -> Option<Answer> {
    let found = counted!(count, N => get_split::<N>(bytes).map(|(head, rest)| (head.len(), rest)))?;
    Some(match found {
        Some((head, rest)) => Answer::found(head, &part(bytes, rest)),
        None => Answer::none(0),
    })
}

/// The call with the cursor at a place; nothing for a place past the input, where the original cannot stand.
pub fn lex(bytes: &[u8], at: usize, call: Call) -> Option<Answer> {
    let mut lexer = Lexer::new(bytes);
    lexer.read_bytes(at).ok()?;
    let got = value(&mut lexer, bytes, call);
    let after = lexer.position();
    Some(match got {
        Ok(Some(words)) => Answer::found(after, &words),
        Ok(None) => Answer::none(after),
        Err(error) => refusal(error, after, || missing::of_call(bytes, at, call)),
    })
}

/// The text of the string token at a place.
pub fn text(bytes: &[u8], at: usize) -> Option<&[u8]> {
    let mut lexer = Lexer::new(bytes);
    lexer.read_bytes(at).ok()?;
    match lexer.read_token() {
        Ok(Token::Quoted(text) | Token::Unquoted(text)) => Some(text.as_bytes()),
        _ => None,
    }
}

/// Reads all tokens; every value is looked at, so that none of the reading can be left out.
pub fn count_tokens(bytes: &[u8]) -> Answer {
    let mut lexer = Lexer::new(bytes);
    let mut count = 0;
    let mut seen = 0u64;
    loop {
        match lexer.next_token() {
            Ok(Some(token)) => {
                count += 1;
                seen = seen.wrapping_add(weight(token));
            }
            Ok(None) => break,
            Err(error) => return refused_token(bytes, error, lexer.position()),
        }
    }
    black_box(seen);
    Answer::found(lexer.position(), &[count])
}

/// The position of the first key that is a plain id, as a caller of the original finds it: token by token, up to the one
/// after the key. Nothing for a place past the input.
pub fn find_key(bytes: &[u8], at: usize, id: u16) -> Option<Answer> {
    let mut lexer = Lexer::new(bytes);
    lexer.read_bytes(at).ok()?;
    let mut walk = Walk::default();
    loop {
        let position = lexer.position();
        match lexer.next_token() {
            Ok(Some(token)) => {
                if let Some(key) =
                    walk.key_before(position, token, |token| matches!(token, Token::Id(this) if this == id))
                {
                    return Some(Answer::found(at, &[key as u64]));
                }
            }
            Ok(None) => return Some(Answer::none(at)),
            Err(error) => return Some(refused_token(bytes, error, at)),
        }
    }
}

/// The entries of a save, as a caller of the original lists them, in one pass: each ends at the next key or at the save's
/// end. What a refusal leaves behind stays.
pub fn contents(bytes: &[u8], list: &mut [Span]) -> Answer {
    let mut lexer = Lexer::new(bytes);
    let mut walk = Walk::default();
    let mut count = 0;
    let mut last = None;
    let mut put = |start: usize, end: usize| {
        if let Some(record) = list.get_mut(count) {
            *record = [start as u32, end as u32];
        }
        count += 1;
    };
    loop {
        let position = lexer.position();
        match lexer.next_token() {
            Ok(Some(token)) => {
                if let Some(key) = walk.key_before(position, token, |_| true)
                    && let Some(start) = last.replace(key)
                {
                    put(start, key);
                }
            }
            Ok(None) => break,
            Err(error) => return refused_token(bytes, error, 0),
        }
    }
    if let Some(start) = last {
        put(start, bytes.len());
    }
    if count > list.len() { Answer::refused(code::LIST_FULL, 0, count) } else { Answer::found(count, &[]) }
}

/// What a caller keeps from token to token to tell keys.
#[derive(Default)]
struct Walk {
    depth: u64,
    /// Of the token before, if it may be a key: its position, and whether an Equal stands before it.
    candidate: Option<(usize, bool)>,
    /// Whether the token before is Equal.
    equal: bool,
}

impl Walk {
    /// The position of the token before this one, if it is sought and this one shows that it is a key.
    #[inline]
    fn key_before(&mut self, position: usize, token: Token, sought: impl Fn(Token) -> bool) -> Option<usize> {
        let before = self.candidate.take();
        let valued = take(&mut self.equal);
        match token {
            Token::Equal => {
                self.equal = true;
                return before.map(|(key, _)| key);
            }
            Token::Open => {
                self.depth += 1;
                return before.and_then(|(key, valued)| (!valued).then_some(key));
            }
            Token::Close => self.depth = self.depth.saturating_sub(1),
            token if self.depth == 0 && sought(token) => self.candidate = Some((position, valued)),
            _ => {}
        }
        None
    }
}

pub fn skip_container(bytes: &[u8]) -> Answer {
    let mut lexer = Lexer::new(bytes);
    match lexer.skip_value(LexemeId::OPEN) {
        Ok(()) => Answer::found(lexer.position(), &[]),
        Err(error) => refusal(error, lexer.position(), || missing::of_call(bytes, 0, Call::SkipContainer)),
    }
}

#[inline]
fn weight(token: Token) -> u64 {
    match token {
        Token::Open | Token::Close | Token::Equal => 1,
        Token::U32(x) | Token::Lookup(x) => x.into(),
        Token::U64(x) => x,
        Token::I32(x) => x as u64,
        Token::I64(x) => x as u64,
        Token::Bool(x) => x.into(),
        Token::Quoted(x) | Token::Unquoted(x) => x.as_bytes().len() as u64,
        Token::F32(x) => u32::from_le_bytes(x).into(),
        Token::F64(x) => u64::from_le_bytes(x),
        Token::Rgb(x) => u64::from(x.r ^ x.g ^ x.b ^ x.a.unwrap_or(0)),
        Token::Id(x) => x.into(),
    }
}

/// Of a token that cannot be read.
pub(crate) fn refused_token(bytes: &[u8], error: LexerError, after: usize) -> Answer {
    let place = error.position();
    refusal(error, after, || missing::of_call(bytes, place, Call::ReadToken))
}

/// What is missing at an end too soon is none of the original's words.
fn refusal(error: LexerError, after: usize, missing: impl FnOnce() -> u64) -> Answer {
    match error.kind() {
        LexError::Eof => Answer::eof(after, error.position(), missing()),
        LexError::InvalidRgb => Answer::refused(code::INVALID_RGB, after, error.position()),
    }
}

type Value = [u64; 7];

fn words(value: &[u64]) -> Value {
    let mut words = [0; 7];
    words[..value.len()].copy_from_slice(value);
    words
}

fn one(value: impl Into<u64>) -> Value {
    words(&[value.into()])
}

fn part(bytes: &[u8], part: &[u8]) -> [u64; 2] {
    let start = part.as_ptr() as usize - bytes.as_ptr() as usize;
    [start as u64, part.len() as u64]
}

fn value(lexer: &mut Lexer, bytes: &[u8], call: Call) -> Result<Option<Value>, LexerError> {
    let at = lexer.position();
    Ok(Some(match call {
        Call::ReadId => one(lexer.read_id()?.0),
        Call::NextId => return Ok(lexer.next_id()?.map(|id| one(id.0))),
        Call::PeekId => return Ok(lexer.peek_id().map(|id| one(id.0))),
        Call::ReadToken => token(bytes, at, lexer.read_token()?),
        Call::NextToken => return Ok(lexer.next_token()?.map(|found| token(bytes, at, found))),
        Call::PeekToken => return Ok(lexer.peek_token().map(|found| token(bytes, at, found))),
        Call::ReadString => words(&part(bytes, lexer.read_string()?.as_bytes())),
        Call::ReadBool => one(lexer.read_bool()?),
        Call::ReadLookupU8 => one(lexer.read_lookup_u8()?),
        Call::ReadLookupU16 => one(lexer.read_lookup_u16()?),
        Call::ReadLookupU24 => one(lexer.read_lookup_u24()?),
        Call::ReadLookupU32 => one(lexer.read_lookup_u32()?),
        Call::ReadU32 => one(lexer.read_u32()?),
        Call::ReadU64 => one(lexer.read_u64()?),
        Call::ReadI32 => one(lexer.read_i32()? as u64),
        Call::ReadI64 => one(lexer.read_i64()? as u64),
        Call::ReadF32 => one(u32::from_le_bytes(lexer.read_f32()?)),
        Call::ReadF64 => one(u64::from_le_bytes(lexer.read_f64()?)),
        Call::ReadRgb => words(&Colour::from(lexer.read_rgb()?).words()),
        Call::ReadBytes(count) => words(&part(bytes, lexer.read_bytes(count)?)),
        Call::SkipValue(id) => nothing(lexer.skip_value(LexemeId::new(id))?),
        Call::SkipContainer => nothing(lexer.skip_value(LexemeId::OPEN)?),
        Call::Remainder => words(&part(bytes, lexer.remainder())),
        Call::Position => one(lexer.position() as u64),
    }))
}

fn nothing((): ()) -> Value {
    words(&[])
}

fn token(bytes: &[u8], at: usize, token: Token) -> Value {
    let (kind, value) = match token {
        Token::Open => (0, words(&[])),
        Token::Close => (1, words(&[])),
        Token::Equal => (2, words(&[])),
        Token::U32(x) => (3, one(x)),
        Token::U64(x) => (4, one(x)),
        Token::I32(x) => (5, one(x as u64)),
        Token::Bool(x) => (6, one(x)),
        Token::Quoted(x) => (7, words(&text_part(bytes, at, x.as_bytes()))),
        Token::Unquoted(x) => (8, words(&text_part(bytes, at, x.as_bytes()))),
        Token::F32(x) => (9, one(u32::from_le_bytes(x))),
        Token::F64(x) => (10, one(u64::from_le_bytes(x))),
        Token::Rgb(x) => (11, words(&Colour::from(x).words())),
        Token::I64(x) => (12, one(x as u64)),
        Token::Lookup(x) => (13, one(x)),
        Token::Id(x) => (14, one(x)),
    };
    let [a, b, c, d, e, ..] = value;
    words(&[kind, a, b, c, d, e])
}

/// The original's text of EMPTY_STRING is no part of the input; FORMAT.md places it after the id.
fn text_part(bytes: &[u8], at: usize, text: &[u8]) -> [u64; 2] {
    if bytes[at..].starts_with(&LexemeId::EMPTY_STRING.0.to_le_bytes()) {
        return [at as u64 + 2, text.len() as u64];
    }
    part(bytes, text)
}
