//! ParserSource with a scheduled supply, from any state, and with all of its buffer in sight.

use super::{Backing, BinarySourceExt, ParserError, ParserSource};
use crate::counted::counted;
use crate::missing;
use crate::shims::Error;
use protocol::{Colour, Got, Numbers, Op, Source, State, code};
use std::cell::Cell;
use std::io::{self, Read};
use std::rc::Rc;

/// No buffer is so long: a larger constant is asked for as this one.
const LONGEST_ARRAY: usize = 1 << 60;

/// Whether the original has the operation: of those that take a constant, not every count is at hand.
pub fn has_op(op: Op) -> bool {
    match op {
        Op::Peek(count) | Op::Take(count) | Op::TryTake(count) => counted!(count.min(LONGEST_ARRAY), N => N).is_some(),
        _ => true,
    }
}

/// One read uses one entry of the schedule.
struct Scheduled<'a> {
    source: &'a Source,
    cursors: Rc<Cursors>,
}

struct Cursors {
    supply: Cell<usize>,
    schedule: Cell<usize>,
}

impl Read for Scheduled<'_> {
    fn read(&mut self, space: &mut [u8]) -> io::Result<usize> {
        let entry = self.source.schedule.get(self.cursors.schedule.get()).copied();
        if entry.is_some() {
            self.cursors.schedule.update(|at| at + 1);
        }
        if entry == Some(Source::FAILS) {
            return Err(io::Error::other("a failing read"));
        }
        let left = &self.source.supply[self.cursors.supply.get()..];
        let most = entry.map_or(usize::MAX, |entry| entry as usize);
        let count = most.min(space.len()).min(left.len());
        space[..count].copy_from_slice(&left[..count]);
        self.cursors.supply.update(|at| at + count);
        Ok(count)
    }
}

/// The original's source, and where its supply and schedule stand.
pub struct Window<'a> {
    source: ParserSource<'a>,
    cursors: Rc<Cursors>,
}

impl<'a> Window<'a> {
    /// The state must fit (`Source::bad_place`).
    pub fn new(given: &'a Source) -> Window<'a> {
        assert_eq!(given.bad_place(), None);
        let Numbers { start, end, supply, schedule, position } = given.numbers();
        let cursors = Rc::new(Cursors { supply: Cell::new(supply), schedule: Cell::new(schedule) });
        let mut source = if given.streaming {
            let read = Scheduled { source: given, cursors: cursors.clone() };
            ParserSource::from_reader_with_buf(read, given.buffer.clone())
        } else {
            ParserSource::from_slice(&given.supply)
        };
        if given.given.is_some() {
            // SAFETY: start and end lie within the bytes that hold the window.
            source.ptr = unsafe { source.base_ptr.add(start) };
            source.end = unsafe { source.base_ptr.add(end) };
            source.total_bytes_parsed = position.wrapping_sub(start);
        }
        Window { source, cursors }
    }

    /// Nothing where the original has no such operation (`has_op`).
    pub fn call(&mut self, op: Op) -> Option<Got> {
        let before = self.source.position();
        let got = self.got(op)?;
        Some(got.unwrap_or_else(|error| self.refused(error, op, before)))
    }

    /// What is missing at an end too soon is none of the original's words.
    fn refused(&self, error: Error, op: Op, before: usize) -> Got {
        let position = self.source.position();
        let refused = |code| Got::Refused { code, position, missing: 0 };
        match error {
            Error::Syntax { offset } => Got::Refused { code: code::INVALID_RGB, position: offset, missing: 0 },
            Error::Source(ParserError::BufferTooSmall) => refused(code::BUFFER_TOO_SMALL),
            Error::Source(error) if error.is_eof() => {
                let missing = missing::of_source(op, position.wrapping_sub(before), self.source.window());
                Got::Refused { code: code::EOF, position, missing }
            }
            Error::Source(_) => refused(code::READ_FAILED),
        }
    }

    fn got(&mut self, op: Op) -> Option<Result<Got, Error>> {
        let source = &mut self.source;
        let base = source.base_ptr as usize;
        let part = |found: &[u8]| Got::Part(found.as_ptr() as usize - base, found.to_vec());
        let number = |id: super::LexemeId| Got::Number(id.0.into());
        let constant = |count: usize| count.min(LONGEST_ARRAY);
        Some(match op {
            Op::Ensure(count) => plain(source.ensure_bytes(count), |()| Got::Done),
            Op::Refill => plain(source.refill(), Got::Number),
            Op::Peek(count) => counted!(constant(count), N => optional(source.peek::<N>(), |found| part(found)))?,
            Op::Take(count) => counted!(constant(count), N => plain(source.take::<N>(), |found| part(found)))?,
            Op::TryTake(count) => {
                counted!(constant(count), N => optional(source.try_take::<N>(), |found| part(found)))?
            }
            Op::TakeBytes(count) => plain(source.take_bytes(count), part),
            Op::TryTakeBytes(count) => optional(source.try_take_bytes(count), part),
            Op::Advance(count) => Ok(Got::Bool(source.advance(count))),
            Op::WindowLen => Ok(Got::Number(source.window_len())),
            Op::Window => Ok(part(source.window())),
            Op::ReadBstr => plain(source.read_bstr(), part),
            Op::ReadLexemeId => plain(source.read_lexeme_id(), number),
            Op::PeekLexemeId => optional(source.peek_lexeme_id(), number),
            Op::ReadRgb => source.read_rgb().map(|colour| Got::Colour(Colour::from(colour).words())),
        })
    }

    pub fn numbers(&self) -> Numbers {
        let source = &self.source;
        let place = |pointer: *const u8| pointer as usize - source.base_ptr as usize;
        Numbers {
            start: place(source.ptr),
            end: place(source.end),
            supply: self.cursors.supply.get(),
            schedule: self.cursors.schedule.get(),
            position: source.position(),
        }
    }

    pub fn window(&self) -> &[u8] {
        self.source.window()
    }

    /// A stream's.
    pub fn buffer(&self) -> Option<&[u8]> {
        match self.source.streaming.as_deref() {
            Some(Backing::Stream { buffer, .. }) => Some(buffer),
            _ => None,
        }
    }

    pub fn state(&self) -> State {
        let buffer = self.buffer().map(<[u8]>::to_vec);
        State { numbers: self.numbers(), window: self.window().to_vec(), buffer }
    }
}

fn plain<T>(found: Result<T, ParserError>, got: impl Fn(T) -> Got) -> Result<Got, Error> {
    Ok(got(found?))
}

fn optional<T>(found: Result<Option<T>, ParserError>, got: impl Fn(T) -> Got) -> Result<Got, Error> {
    Ok(found?.map_or(Got::None, got))
}
