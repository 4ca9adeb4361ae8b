//! The original's answers to requests.

use crate::{FAST_WINDOW, Window, calls, next_token_fast, offset, write};
use protocol::{
    Answer, Op, Request, Source, Spelling, UNTOUCHED, code, contents_line, fast_line, find_line, kind_line, lex_line,
    output_line, source_line, split_line,
};

/// The port's longest save: the original has no limit.
const LONGEST: usize = 1 << 31;

/// Nothing where the original has no such call, or cannot stand there.
pub fn answer_request(request: &Request) -> Option<String> {
    match request {
        Request::Kind(id) => Some(kind_line(calls::kind(*id), calls::is_id(*id))),
        Request::Split { bytes, count } => Some(split_line(bytes, &calls::split(bytes, *count)?)),
        Request::Lex { bytes, at, offset, call } => {
            let answer = offset::lex(bytes, *at, *offset, *call)?;
            Some(lex_line(bytes, *call, &answer, *offset as u64 + answer.words[0]))
        }
        Request::Find { bytes, at, offset, id } => Some(find_line(&offset::find_key(bytes, *at, *offset, *id)?)),
        Request::Write { spelling: Spelling::Normal, room, token } => {
            let mut out = vec![0; *room];
            let count = write(&token.token()?, &mut out)?;
            Some(output_line(&Answer::found(count, &[]), &out))
        }
        Request::Toc { capacity, bytes } => filled(*capacity, bytes),
        Request::Fast { held, window } => Some(stepped(*held, window)),
        Request::Source { source, ops } => source_lines(source, ops),
        Request::Write { spelling: Spelling::Shortest, .. } | Request::Dump { .. } => None,
        Request::Save { .. } | Request::Rescue { .. } => None,
        Request::TocSearch { .. } | Request::TocWrite { .. } | Request::TocRead { .. } => None,
    }
}

/// A caller that is refused throws its list away.
fn filled(capacity: usize, bytes: &[u8]) -> Option<String> {
    if bytes.len() > LONGEST {
        return None;
    }
    let mut list = vec![UNTOUCHED; capacity];
    let answer = calls::contents(bytes, &mut list);
    if answer.code != code::ANSWERED {
        list.fill(UNTOUCHED);
    }
    Some(contents_line(&answer, &list))
}

/// Below the shortest window its own caller does not take the step.
fn stepped(held: [u8; 8], window: &[u8]) -> String {
    if window.len() < FAST_WINDOW {
        return fast_line(&Answer::none(0), &held);
    }
    let fast = next_token_fast(held, window);
    fast_line(&fast.answer(), &fast.held)
}

fn source_lines(source: &Source, ops: &[Op]) -> Option<String> {
    if source.bad_place().is_some() {
        return None;
    }
    let mut window = Window::new(source);
    let lines = ops.iter().map(|op| Some(source_line(&window.call(*op)?, &window.state())));
    Some(lines.collect::<Option<Vec<_>>>()?.join(" ; "))
}
