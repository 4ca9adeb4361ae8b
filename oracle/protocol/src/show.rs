//! The answer lines.

use crate::contents::list_words;
use crate::{Answer, Call, KINDS, Shape, Span, code, hex};

pub fn kind_line(kind: u32, is_id: bool) -> String {
    format!("{} {}", kind_name(kind.into()), if is_id { "plain" } else { "reserved" })
}

pub fn split_line(bytes: &[u8], answer: &Answer) -> String {
    let [count, start, length, ..] = answer.words;
    match answer.code {
        code::ANSWERED => format!("ok {} {}", hex(part(bytes, 0, count)), hex(part(bytes, start, length))),
        code::NONE => "none".to_string(),
        code => format!("err {}", refusal(code)),
    }
}

/// With the position in the file of the cursor that is left.
pub fn lex_line(bytes: &[u8], call: Call, answer: &Answer, position: u64) -> String {
    let refused = answer.words[1];
    match answer.code {
        code::ANSWERED if call == Call::Position => format!("ok at {}", answer.words[1]),
        code::ANSWERED => {
            let value = value(bytes, call.shape(), answer.value());
            let space = if value.is_empty() { "" } else { " " };
            format!("ok{space}{value} at {position}")
        }
        code::NONE => format!("none at {position}"),
        code::BAD_PLACE => format!("badplace {refused}"),
        _ => format!("err {} at {position}", refused_words(answer)),
    }
}

/// Where a key stands.
pub fn find_line(answer: &Answer) -> String {
    let [_, value, ..] = answer.words;
    match answer.code {
        code::ANSWERED => format!("ok {value}"),
        code::NONE => "absent".to_string(),
        code::BAD_PLACE => format!("badplace {value}"),
        _ => format!("err {}", refused_words(answer)),
    }
}

/// A writer's answer, with what it put into the lent output.
pub fn output_line(answer: &Answer, out: &[u8]) -> String {
    let [count, refused, ..] = answer.words;
    match answer.code {
        code::ANSWERED => format!("ok {count} {}", hex(part(out, 0, count))),
        code::BAD_PLACE => format!("badplace {refused}"),
        code::BAD_INDEX => "badindex".to_string(),
        _ => format!("err {}", refused_words(answer)),
    }
}

/// What was rescued, and what is told of it: the bytes cut, the strays left out, the Closes added.
pub fn rescue_line(answer: &Answer, out: &[u8]) -> String {
    let line = output_line(answer, out);
    let [_, cut, strays, closes, ..] = answer.words;
    match answer.code {
        code::ANSWERED => format!("{line} cut {cut} strays {strays} closes {closes}"),
        _ => line,
    }
}

/// The answer of a call that fills a list, with all records as it left them.
pub fn contents_line(answer: &Answer, list: &[Span]) -> String {
    let count = answer.words[0];
    let list = list_words(list);
    match answer.code {
        code::ANSWERED => format!("ok {count} {list}"),
        code::BAD_INDEX => format!("badindex {list}"),
        _ => format!("err {} {list}", refused_words(answer)),
    }
}

/// The number of the entry that holds a position.
pub fn search_line(answer: &Answer) -> String {
    match answer.code {
        code::ANSWERED => format!("ok {}", answer.words[0]),
        code::NONE => "none".to_string(),
        code::BAD_INDEX => "badindex".to_string(),
        code => format!("err {}", refusal(code)),
    }
}

/// The dump in one line.
pub fn dump_line(answer: &Answer, out: &[u8]) -> String {
    match answer.code {
        code::ANSWERED => {
            String::from_utf8_lossy(part(out, 0, answer.words[0])).trim_end_matches('\n').replace('\n', " | ")
        }
        _ => output_line(answer, out),
    }
}

pub fn fast_line(answer: &Answer, held: &[u8]) -> String {
    let [length, kind, ..] = answer.words;
    match answer.code {
        code::ANSWERED => format!("fast {} {length} {}", kind_name(kind), hex(held)),
        code::NONE => "slow".to_string(),
        code => format!("err {}", refusal(code)),
    }
}

fn kind_name(kind: u64) -> &'static str {
    KINDS.get(kind as usize).copied().unwrap_or("unknown")
}

/// A refusal with its number; Eof has two.
fn refused_words(answer: &Answer) -> String {
    let [_, number, missing, ..] = answer.words;
    let word = refusal(answer.code);
    match answer.code {
        code::EOF => format!("{word} {number} missing {missing}"),
        _ => format!("{word} {number}"),
    }
}

pub(crate) fn refusal(code: u32) -> String {
    let names = [
        (code::EOF, "eof"),
        (code::INVALID_RGB, "rgb"),
        (code::LONG_STRING, "longstring"),
        (code::WIDE_LOOKUP, "widelookup"),
        (code::RESERVED_ID, "reservedid"),
        (code::NO_ROOM, "noroom"),
        (code::BUFFER_TOO_SMALL, "small"),
        (code::READ_FAILED, "read"),
        (code::TOO_LONG, "toolong"),
        (code::LIST_FULL, "listfull"),
    ];
    let found = names.iter().find(|(number, _)| *number == code);
    found.map_or_else(|| format!("code{code}"), |(_, name)| name.to_string())
}

pub(crate) fn colour(words: &[u64]) -> String {
    let alpha = if words[3] == 0 { String::new() } else { format!(" {}", words[4]) };
    format!("{} {} {}{alpha}", words[0], words[1], words[2])
}

fn value(bytes: &[u8], shape: Shape, words: &[u64]) -> String {
    match shape {
        Shape::Nothing => String::new(),
        Shape::Number => words[0].to_string(),
        Shape::Signed => words[0].cast_signed().to_string(),
        Shape::Bool => (words[0] != 0).to_string(),
        Shape::Bytes4 => hex(&words[0].to_le_bytes()[..4]),
        Shape::Bytes8 => hex(&words[0].to_le_bytes()),
        Shape::Part => format!("{} {} {}", words[0], words[1], hex(part(bytes, words[0], words[1]))),
        Shape::Colour => colour(words),
        Shape::Token => token(bytes, words),
    }
}

fn token(bytes: &[u8], words: &[u64]) -> String {
    let Some(name) = KINDS.get(words[0] as usize) else {
        return format!("unknown {}", words[0]);
    };
    let shape = match *name {
        "open" | "close" | "equal" => return name.to_string(),
        "i32" | "i64" => Shape::Signed,
        "bool" => Shape::Bool,
        "quoted" | "unquoted" => Shape::Part,
        "f32" => Shape::Bytes4,
        "f64" => Shape::Bytes8,
        "rgb" => Shape::Colour,
        _ => Shape::Number,
    };
    format!("{name} {}", value(bytes, shape, &words[1..]))
}

/// Empty where the words name no part of the bytes.
pub(crate) fn part(bytes: &[u8], start: u64, length: u64) -> &[u8] {
    let rest = bytes.get(start as usize..).unwrap_or_default();
    rest.get(..length as usize).unwrap_or_default()
}
