//! How many bytes a refused read misses. The original does not say it: the number is made here from the bytes, in
//! FORMAT.md's words. It is the count that the read asks for in one piece, less the bytes that are left to it.

use protocol::{Call, Op};
use saves::ids::{CLOSE, OPEN, U32};
use saves::{Payload, payload};

/// Of a read that misses nothing, and so should not be refused: no answer of the port is like it.
const NOTHING: usize = usize::MAX;

/// What follows the pieces that are read; or what the first piece that is not all there misses.
type Rest<'a> = Result<&'a [u8], usize>;

/// Of a call at a place that ends too soon.
pub fn of_call(bytes: &[u8], at: usize, call: Call) -> u64 {
    let bytes = bytes.get(at..).unwrap_or_default();
    let rest = match call {
        Call::ReadId | Call::NextId => piece(bytes, 2),
        Call::ReadToken | Call::NextToken => token(bytes),
        Call::ReadString => text(bytes),
        Call::ReadBool | Call::ReadLookupU8 => piece(bytes, 1),
        Call::ReadLookupU16 => piece(bytes, 2),
        Call::ReadLookupU24 => piece(bytes, 3),
        Call::ReadLookupU32 | Call::ReadU32 | Call::ReadI32 | Call::ReadF32 => piece(bytes, 4),
        Call::ReadU64 | Call::ReadI64 | Call::ReadF64 => piece(bytes, 8),
        Call::ReadRgb => colour(bytes),
        Call::ReadBytes(count) => piece(bytes, count),
        Call::SkipContainer | Call::SkipValue(OPEN) => container(bytes),
        Call::SkipValue(id) => value(bytes, id),
        Call::PeekId | Call::PeekToken | Call::Remainder | Call::Position => Ok(bytes),
    };
    rest.err().unwrap_or(NOTHING) as u64
}

fn piece(bytes: &[u8], count: usize) -> Rest<'_> {
    bytes.get(count..).ok_or_else(|| count - bytes.len())
}

fn token(bytes: &[u8]) -> Rest<'_> {
    let rest = piece(bytes, 2)?;
    value(rest, number(bytes, 0))
}

/// What follows an id.
fn value(bytes: &[u8], id: u16) -> Rest<'_> {
    match payload(id) {
        Payload::Bytes(count) => piece(bytes, count),
        Payload::Text => text(bytes),
        Payload::Colour => colour(bytes),
    }
}

/// Its length is a piece, and so is the text.
fn text(bytes: &[u8]) -> Rest<'_> {
    let rest = piece(bytes, 2)?;
    piece(rest, number(bytes, 0).into())
}

/// Up to the fifth id in one piece; where that begins a fourth channel, the rest in another.
fn colour(bytes: &[u8]) -> Rest<'_> {
    let rest = piece(bytes, 22)?;
    let ids = [0, 2, 8, 14, 20].map(|at| number(bytes, at));
    if ids == [OPEN, U32, U32, U32, U32] { piece(rest, 6) } else { Ok(rest) }
}

/// Up to its Close. A colour's id has nothing after it here, and is followed by what looks like a container.
fn container(mut bytes: &[u8]) -> Rest<'_> {
    let mut depth = 1usize;
    while depth > 0 {
        let rest = piece(bytes, 2)?;
        let id = number(bytes, 0);
        bytes = if payload(id) == Payload::Colour { rest } else { value(rest, id)? };
        match id {
            OPEN => depth += 1,
            CLOSE => depth -= 1,
            _ => {}
        }
    }
    Ok(bytes)
}

/// The number of two bytes that are there.
fn number(bytes: &[u8], at: usize) -> u16 {
    u16::from_le_bytes([bytes[at], bytes[at + 1]])
}

/// Of an operation on a source that ends too soon: it has taken so many bytes before the refused read, which leaves this
/// window.
pub fn of_source(op: Op, taken: usize, window: &[u8]) -> usize {
    asked(op, taken, window).and_then(|count| piece(window, count).err()).unwrap_or(NOTHING)
}

/// The count that the refused read asks for.
fn asked(op: Op, taken: usize, window: &[u8]) -> Option<usize> {
    match op {
        Op::Ensure(count) | Op::Peek(count) | Op::Take(count) | Op::TryTake(count) => Some(count),
        Op::TakeBytes(count) | Op::TryTakeBytes(count) => Some(count),
        Op::ReadLexemeId | Op::PeekLexemeId => Some(2),
        Op::ReadBstr if window.len() < 2 => Some(2),
        Op::ReadBstr => Some(2 + usize::from(number(window, 0))),
        Op::ReadRgb => Some(if [4, 10, 16, 22].contains(&taken) { 4 } else { 2 }),
        Op::Advance(_) | Op::Refill | Op::WindowLen | Op::Window => None,
    }
}
