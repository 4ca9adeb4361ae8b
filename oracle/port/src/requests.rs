//! The port's answers to requests.

use crate::source::Window;
use crate::{
    answer, contents, contents_read, contents_search, contents_write, find_key, is_id, kind, lex, list,
    next_token_fast, rescue, respell, split, write,
};
use protocol::{
    Answer, Call, Got, Handed, Op, Request, Source, UNTOUCHED, code, contents_line, dump_line, fast_line, find_line,
    kind_line, lex_line, output_line, rescue_line, search_line, source_line, split_line,
};

/// No answer fills more, and no output is made longer.
const LARGEST: usize = 1 << 30;

pub fn answer_request(request: &Request) -> String {
    match request {
        Request::Kind(id) => kind_line(kind(*id), is_id(*id)),
        Request::Split { bytes, count } => split_line(bytes, &answer(|words| split(bytes, *count, words))),
        Request::Lex { bytes, at, offset, call } => {
            let answer = answer(|words| lex(bytes, *at, *offset, *call, words));
            lex_line(bytes, *call, &answer, position(bytes, *offset, &answer))
        }
        Request::Find { bytes, at, offset, id } => {
            find_line(&answer(|words| find_key(bytes, *at, *offset, *id, words)))
        }
        Request::Write { spelling, room, token: Handed { kind, words, bytes } } => {
            let (answer, out) = lending(*room, |out, answer| write(*spelling, bytes, *kind, words, out, answer));
            output_line(&answer, &out)
        }
        Request::Dump { bytes } => dumped(bytes),
        Request::Save { spelling, room, bytes } => {
            let (answer, out) = lending(*room, |out, words| respell(*spelling, bytes, out, words));
            output_line(&answer, &out)
        }
        Request::Rescue { room, bytes } => {
            let (answer, out) = lending(*room, |out, words| rescue(bytes, out, words));
            rescue_line(&answer, &out)
        }
        Request::Toc { capacity, bytes } => filled(*capacity, |list, words| contents(bytes, list, words)),
        Request::TocSearch { list, position } => {
            search_line(&answer(|words| contents_search(list.as_flattened(), *position, words)))
        }
        Request::TocWrite { room, list } => {
            let (answer, out) = lending(*room, |out, words| contents_write(list.as_flattened(), out, words));
            output_line(&answer, &out)
        }
        Request::TocRead { capacity, file } => filled(*capacity, |list, words| contents_read(file, list, words)),
        Request::Fast { held, window } => {
            let mut held = *held;
            let answer = answer(|words| next_token_fast(window, &mut held, words));
            fast_line(&answer, &held)
        }
        Request::Source { source, ops } => source_lines(source, ops),
    }
}

/// Where the cursor that an answer leaves stands in the file.
fn position(bytes: &[u8], offset: usize, left: &Answer) -> u64 {
    answer(|words| lex(bytes, left.words[0] as usize, offset, Call::Position, words)).words[1]
}

fn lending(room: usize, call: impl FnOnce(&mut [u8], &mut [u64]) -> u32) -> (Answer, Vec<u8>) {
    let mut out = vec![0; room.min(LARGEST)];
    let answer = answer(|words| call(&mut out, words));
    (answer, out)
}

fn filled(capacity: usize, call: impl FnOnce(&mut [u32], &mut [u64]) -> u32) -> String {
    let mut list = vec![UNTOUCHED; capacity];
    let answer = answer(|words| call(list.as_flattened_mut(), words));
    contents_line(&answer, &list)
}

/// Asked twice: for its length, and with room for it.
fn dumped(bytes: &[u8]) -> String {
    let (asked, out) = lending(0, |out, words| list(bytes, out, words));
    if asked.code != code::NO_ROOM {
        return dump_line(&asked, &out);
    }
    let (answer, out) = lending(asked.words[1] as usize, |out, words| list(bytes, out, words));
    dump_line(&answer, &out)
}

/// Where the state is refused, that is the whole answer.
fn source_lines(source: &Source, ops: &[Op]) -> String {
    let mut window = Window::new(source);
    let mut lines = Vec::new();
    for op in ops {
        match window.call(*op) {
            Got::Refused { code: code::BAD_PLACE, position, .. } => return format!("badplace {position}"),
            got => lines.push(source_line(&got, &window.state())),
        }
    }
    lines.join(" ; ")
}
