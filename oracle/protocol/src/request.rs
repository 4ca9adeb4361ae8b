//! The request lines.

use crate::contents::list;
use crate::{Call, Colour, Handed, Numbers, Op, Source, Span, Spelling, Token, unhex};
use std::str::FromStr;

/// A longer one is not understood.
const LONGEST_BUFFER: usize = 1 << 30;
/// More are not understood.
const MOST_ZEROS: usize = 1 << 32;
/// More are not understood; a list of so many is as long as the longest buffer.
const MOST_RECORDS: usize = LONGEST_BUFFER / size_of::<Span>();

#[derive(Clone, Debug, PartialEq, Eq)]
pub enum Request {
    Kind(u16),
    Split { bytes: Vec<u8>, count: usize },
    Lex { bytes: Vec<u8>, at: usize, offset: usize, call: Call },
    Find { bytes: Vec<u8>, at: usize, offset: usize, id: u16 },
    Write { spelling: Spelling, room: usize, token: Handed },
    Dump { bytes: Vec<u8> },
    Save { spelling: Spelling, room: usize, bytes: Vec<u8> },
    Rescue { room: usize, bytes: Vec<u8> },
    Toc { capacity: usize, bytes: Vec<u8> },
    TocSearch { list: Vec<Span>, position: u64 },
    TocWrite { room: usize, list: Vec<Span> },
    TocRead { capacity: usize, file: Vec<u8> },
    Fast { held: [u8; 8], window: Vec<u8> },
    Source { source: Source, ops: Vec<Op> },
}

impl Request {
    /// Nothing where the line is no request.
    pub fn parse(line: &str) -> Option<Request> {
        if let Some((head, ops)) = line.split_once(" : ") {
            let mut words = Words::of(head);
            words.expect("source")?;
            let source = source(&mut words)?;
            let ops = ops.split(" ; ").map(op).collect::<Option<_>>()?;
            return words.end(Request::Source { source, ops });
        }
        let mut words = Words::of(line);
        let request = simple(&mut words)?;
        words.end(request)
    }
}

/// The words of a line, parted by single spaces.
struct Words<'a>(std::str::Split<'a, char>);

impl<'a> Words<'a> {
    fn of(line: &'a str) -> Words<'a> {
        Words(line.split(' '))
    }

    fn word(&mut self) -> Option<&'a str> {
        self.0.next()
    }

    fn expect(&mut self, word: &str) -> Option<()> {
        (self.word()? == word).then_some(())
    }

    fn number<N: FromStr>(&mut self) -> Option<N> {
        number(self.word()?)
    }

    fn id(&mut self) -> Option<u16> {
        let word = self.word()?;
        match word.strip_prefix("0x") {
            Some(digits) if !digits.starts_with('+') => u16::from_str_radix(digits, 16).ok(),
            Some(_) => None,
            None => number(word),
        }
    }

    fn bytes(&mut self) -> Option<Vec<u8>> {
        unhex(self.word()?)
    }

    fn bytes_or_zeros(&mut self) -> Option<Vec<u8>> {
        bytes_or_zeros(self.word()?)
    }

    fn list(&mut self) -> Option<Vec<Span>> {
        list(self.word()?)
    }

    fn capacity(&mut self) -> Option<usize> {
        self.number().filter(|count| *count <= MOST_RECORDS)
    }

    fn array<const N: usize>(&mut self) -> Option<[u8; N]> {
        self.bytes()?.try_into().ok()
    }

    fn end<T>(mut self, value: T) -> Option<T> {
        self.word().is_none().then_some(value)
    }
}

pub(crate) fn number<N: FromStr>(word: &str) -> Option<N> {
    if word.starts_with('+') { None } else { word.parse().ok() }
}

/// Of zeros only their number is written.
fn bytes_or_zeros(word: &str) -> Option<Vec<u8>> {
    match word.strip_prefix('*') {
        Some(count) => Some(vec![0; number(count).filter(|count| *count <= MOST_ZEROS)?]),
        None => unhex(word),
    }
}

fn simple(words: &mut Words) -> Option<Request> {
    Some(match words.word()? {
        "kind" => Request::Kind(words.id()?),
        "split" => Request::Split { bytes: words.bytes()?, count: words.number()? },
        "at" => in_file(words)?,
        "lex" => lex(words, 0)?,
        "find" => find(words, 0)?,
        "write" => write(words, Spelling::Normal)?,
        "shortest" => write(words, Spelling::Shortest)?,
        "dump" => Request::Dump { bytes: words.bytes()? },
        "normal" => save(words, Spelling::Normal)?,
        "shorten" => save(words, Spelling::Shortest)?,
        "rescue" => Request::Rescue { room: words.number()?, bytes: words.bytes_or_zeros()? },
        "toc" => Request::Toc { capacity: words.capacity()?, bytes: words.bytes_or_zeros()? },
        "toc_search" => Request::TocSearch { list: words.list()?, position: words.number()? },
        "toc_write" => Request::TocWrite { room: words.number()?, list: words.list()? },
        "toc_read" => Request::TocRead { capacity: words.capacity()?, file: words.bytes()? },
        "fast" => Request::Fast { held: words.array()?, window: words.bytes()? },
        _ => return None,
    })
}

/// Of an input that begins at an offset.
fn in_file(words: &mut Words) -> Option<Request> {
    let offset = words.number()?;
    match words.word()? {
        "lex" => lex(words, offset),
        "find" => find(words, offset),
        _ => None,
    }
}

fn lex(words: &mut Words, offset: usize) -> Option<Request> {
    Some(Request::Lex { offset, bytes: words.bytes()?, at: words.number()?, call: call(words)? })
}

fn find(words: &mut Words, offset: usize) -> Option<Request> {
    Some(Request::Find { offset, bytes: words.bytes()?, at: words.number()?, id: words.id()? })
}

fn write(words: &mut Words, spelling: Spelling) -> Option<Request> {
    Some(Request::Write { spelling, room: words.number()?, token: token(words)? })
}

fn save(words: &mut Words, spelling: Spelling) -> Option<Request> {
    Some(Request::Save { spelling, room: words.number()?, bytes: words.bytes_or_zeros()? })
}

fn call(words: &mut Words) -> Option<Call> {
    match words.word()? {
        "read_bytes" => Some(Call::ReadBytes(words.number()?)),
        "skip_value" => Some(Call::SkipValue(words.id()?)),
        name => Call::PLAIN.iter().copied().find(|call| call.name() == name),
    }
}

fn token(words: &mut Words) -> Option<Handed> {
    let token = match words.word()? {
        "open" => Token::Open,
        "close" => Token::Close,
        "equal" => Token::Equal,
        "u32" => Token::U32(words.number()?),
        "u64" => Token::U64(words.number()?),
        "i32" => Token::I32(words.number()?),
        "bool" => Token::Bool(words.number()?),
        "quoted" => return text(words, Token::Quoted),
        "unquoted" => return text(words, Token::Unquoted),
        "f32" => Token::F32(words.array()?),
        "f64" => Token::F64(words.array()?),
        "rgb" => Token::Rgb(colour(words)?),
        "i64" => Token::I64(words.number()?),
        "lookup" => Token::Lookup(words.number()?),
        "id" => Token::Id(words.id()?),
        _ => return None,
    };
    Some(token.into())
}

/// All of the bytes, or the part of them that a start and a length before them name.
fn text(words: &mut Words, token: fn(Vec<u8>) -> Token) -> Option<Handed> {
    let first = words.word()?;
    let Some(second) = words.word() else {
        return Some(token(bytes_or_zeros(first)?).into());
    };
    let (start, length) = (number(first)?, number(second)?);
    Some(Handed { words: [start, length, 0, 0, 0], ..token(words.bytes_or_zeros()?).into() })
}

fn colour(words: &mut Words) -> Option<Colour> {
    let (r, g, b) = (words.number()?, words.number()?, words.number()?);
    let a = match words.word() {
        Some(word) => Some(number(word)?),
        None => None,
    };
    Some(Colour { r, g, b, a })
}

fn source(words: &mut Words) -> Option<Source> {
    Some(match words.word()? {
        "slice" => Source::slice(words.bytes()?),
        "stream" => {
            let buffer = words.number().filter(|length| *length <= LONGEST_BUFFER)?;
            Source::stream(vec![0; buffer], words.bytes()?, schedule(words.word()?)?)
        }
        "state" => state(words)?,
        _ => return None,
    })
}

fn state(words: &mut Words) -> Option<Source> {
    let buffer = words.bytes()?;
    let (start, end, position) = (words.number()?, words.number()?, words.number()?);
    let (supply, supply_at) = (words.bytes()?, words.number()?);
    let (schedule, schedule_at) = (schedule(words.word()?)?, words.number()?);
    let given = Some(Numbers { start, end, supply: supply_at, schedule: schedule_at, position });
    Some(Source { given, ..Source::stream(buffer, supply, schedule) })
}

fn schedule(word: &str) -> Option<Vec<u32>> {
    if word == "-" {
        return Some(Vec::new());
    }
    word.split(',').map(|entry| if entry == "f" { Some(Source::FAILS) } else { number(entry) }).collect()
}

fn op(text: &str) -> Option<Op> {
    let mut words = Words::of(text);
    let word = words.word()?;
    let op = Op::parse(word, || words.number())?;
    words.end(op)
}
