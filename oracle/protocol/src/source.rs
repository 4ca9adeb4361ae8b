//! Sources, the operations on them, and what they answer.

use crate::{Answer, Shape, code, hex, show};
use std::fmt::{Display, Formatter};

/// The words of a source's state.
pub const STATE_WORDS: usize = 6;

/// The numbers of a source's state, in the order of its words.
#[derive(Clone, Copy, Debug, Default, PartialEq, Eq)]
pub struct Numbers {
    pub start: usize,
    pub end: usize,
    pub supply: usize,
    pub schedule: usize,
    pub position: usize,
}

impl Numbers {
    /// The sixth word says whether the source is a stream.
    pub fn words(self, streaming: bool) -> [u64; STATE_WORDS] {
        let Numbers { start, end, supply, schedule, position } = self;
        [start, end, supply, schedule, position, usize::from(streaming)].map(|number| number as u64)
    }

    pub fn of_words(words: [u64; STATE_WORDS]) -> Numbers {
        let [start, end, supply, schedule, position, _] = words.map(|word| word as usize);
        Numbers { start, end, supply, schedule, position }
    }
}

/// A source with all that is lent to it. A slice is its own supply.
#[derive(Clone, Debug, PartialEq, Eq)]
pub struct Source {
    pub streaming: bool,
    pub buffer: Vec<u8>,
    pub supply: Vec<u8>,
    pub schedule: Vec<u32>,
    /// Nothing where the source is new.
    pub given: Option<Numbers>,
}

impl Source {
    /// The entry of a read that fails.
    pub const FAILS: u32 = 0xffff_ffff;

    pub fn slice(supply: Vec<u8>) -> Source {
        Source { streaming: false, buffer: Vec::new(), supply, schedule: Vec::new(), given: None }
    }

    pub fn stream(buffer: Vec<u8>, supply: Vec<u8>, schedule: Vec<u32>) -> Source {
        Source { streaming: true, buffer, supply, schedule, given: None }
    }

    pub fn numbers(&self) -> Numbers {
        let all = if self.streaming { 0 } else { self.supply.len() };
        self.given.unwrap_or(Numbers { end: all, supply: all, ..Numbers::default() })
    }

    pub fn words(&self) -> [u64; STATE_WORDS] {
        self.numbers().words(self.streaming)
    }

    /// How many bytes hold the window.
    fn held(&self) -> usize {
        if self.streaming { self.buffer.len() } else { self.supply.len() }
    }

    /// The first number that does not fit, in FORMAT.md's order.
    pub fn bad_place(&self) -> Option<usize> {
        let Numbers { start, end, supply, schedule, position } = self.numbers();
        let ends = [(start, end), (end, self.held()), (supply, self.supply.len()), (schedule, self.schedule.len())];
        if let Some((bad, _)) = ends.into_iter().find(|(number, last)| number > last) {
            return Some(bad);
        }
        let ahead = (end - start) + (self.supply.len() - supply);
        position.checked_add(ahead).is_none().then_some(position)
    }
}

macro_rules! ops {
    (
        counted { $($counted:ident $counted_word:ident $counted_shape:ident,)* }
        plain { $($plain:ident $word:ident $shape:ident,)* }
    ) => {
        #[derive(Clone, Copy, Debug, PartialEq, Eq)]
        pub enum Op {
            $($counted(usize),)*
            $($plain,)*
            /// No operation of a request: every answer has the window.
            Window,
        }

        impl Op {
            pub const COUNTED: &[fn(usize) -> Op] = &[$(Op::$counted),*];
            pub const PLAIN: &[Op] = &[$(Op::$plain),*];

            /// By a request's word; the count is asked for where the operation takes one.
            pub fn parse(word: &str, count: impl FnOnce() -> Option<usize>) -> Option<Op> {
                match word {
                    $(stringify!($counted_word) => Some(Op::$counted(count()?)),)*
                    $(stringify!($word) => Some(Op::$plain),)*
                    _ => None,
                }
            }

            pub fn name(self) -> &'static str {
                match self {
                    $(Op::$counted(_) => concat!("source ", stringify!($counted_word)),)*
                    $(Op::$plain => concat!("source ", stringify!($word)),)*
                    Op::Window => "source window",
                }
            }

            pub fn count(self) -> Option<usize> {
                match self {
                    $(Op::$counted(count) => Some(count),)*
                    _ => None,
                }
            }

            pub fn with_count(self, count: usize) -> Op {
                match self {
                    $(Op::$counted(_) => Op::$counted(count),)*
                    plain => plain,
                }
            }

            pub fn shape(self) -> Shape {
                match self {
                    $(Op::$counted(_) => Shape::$counted_shape,)*
                    $(Op::$plain => Shape::$shape,)*
                    Op::Window => Shape::Part,
                }
            }
        }
    };
}

ops! {
    counted {
        Ensure ensure Nothing,
        Peek peek Part,
        Take take Part,
        TryTake try_take Part,
        TakeBytes take_bytes Part,
        TryTakeBytes try_take_bytes Part,
        Advance advance Bool,
    }
    plain {
        Refill refill Number,
        WindowLen window_len Number,
        ReadBstr read_bstr Part,
        ReadLexemeId read_lexeme_id Number,
        PeekLexemeId peek_lexeme_id Number,
        ReadRgb read_rgb Colour,
    }
}

impl Display for Op {
    fn fmt(&self, f: &mut Formatter<'_>) -> std::fmt::Result {
        f.write_str(self.name().trim_start_matches("source "))?;
        self.count().map_or(Ok(()), |count| write!(f, " {count}"))
    }
}

/// What an operation answers.
#[derive(Clone, Debug, PartialEq, Eq)]
pub enum Got {
    Done,
    Number(usize),
    Bool(bool),
    /// Where it begins in the bytes that hold the window, and the bytes.
    Part(usize, Vec<u8>),
    /// A colour's words.
    Colour([u64; 5]),
    None,
    /// Only Eof misses something; a request's answer does not say how much.
    Refused {
        code: u32,
        position: usize,
        missing: usize,
    },
}

impl Got {
    /// As the C functions give it, with the position after the call.
    pub fn answer(&self, after: usize) -> Answer {
        match self {
            Got::Done => Answer::found(after, &[]),
            Got::Number(number) => Answer::found(after, &[*number as u64]),
            Got::Bool(value) => Answer::found(after, &[u64::from(*value)]),
            Got::Part(start, bytes) => Answer::found(after, &[*start as u64, bytes.len() as u64]),
            Got::Colour(words) => Answer::found(after, words),
            Got::None => Answer::none(after),
            Got::Refused { code, position, missing } => {
                Answer { code: *code, ..Answer::found(after, &[*position as u64, *missing as u64]) }
            }
        }
    }

    /// The same back again, with the bytes that hold the window.
    pub fn of_answer(op: Op, answer: &Answer, held: &[u8]) -> Got {
        let [_, first, second, third, fourth, fifth, ..] = answer.words;
        match (answer.code, op.shape()) {
            (code::NONE, _) => Got::None,
            (code::ANSWERED, Shape::Nothing) => Got::Done,
            (code::ANSWERED, Shape::Bool) => Got::Bool(first != 0),
            (code::ANSWERED, Shape::Part) => Got::Part(first as usize, show::part(held, first, second).to_vec()),
            (code::ANSWERED, Shape::Colour) => Got::Colour([first, second, third, fourth, fifth]),
            (code::ANSWERED, _) => Got::Number(first as usize),
            (code, _) => Got::Refused { code, position: first as usize, missing: second as usize },
        }
    }
}

/// A source after an operation; the buffer only of a stream.
#[derive(Clone, Debug, PartialEq, Eq)]
pub struct State {
    pub numbers: Numbers,
    pub window: Vec<u8>,
    pub buffer: Option<Vec<u8>>,
}

/// One operation's part of the answer line.
pub fn source_line(got: &Got, state: &State) -> String {
    let Numbers { start, end, supply, schedule, position } = state.numbers;
    let window = hex(&state.window);
    let mut line = format!("{} pos={position} start={start} end={end} window={window}", got_words(got));
    if let Some(buffer) = &state.buffer {
        line += &format!(" buffer={} supply={supply} schedule={schedule}", hex(buffer));
    }
    line
}

fn got_words(got: &Got) -> String {
    match got {
        Got::Done => "ok".to_string(),
        Got::Number(number) => format!("ok {number}"),
        Got::Bool(value) => format!("ok {value}"),
        Got::Part(_, bytes) => format!("ok {}", hex(bytes)),
        Got::Colour(words) => format!("ok {}", show::colour(words)),
        Got::None => "none".to_string(),
        Got::Refused { code: code::BAD_PLACE, position, .. } => format!("badplace {position}"),
        Got::Refused { code, position, .. } => format!("err {} {position}", show::refusal(*code)),
    }
}
