//! The dump of a save as FORMAT.md words it, from the original's tokens.

use crate::keys::keys;
use protocol::{KINDS, Token, code, hex};

pub fn dump(bytes: &[u8]) -> String {
    let (tokens, end) = original::tokens(bytes);
    let mut lines: Vec<String> = tokens.iter().map(|(at, token)| format!("{at} {}", spelled(token))).collect();
    lines.push(match end.code {
        code::ANSWERED => last_line(bytes.len(), &tokens),
        code::EOF => format!("error eof {}", end.words[1]),
        _ => format!("error rgb {}", end.words[1]),
    });
    lines.iter().map(|line| format!("{line}\n")).collect()
}

/// Kind and value, as the `write` request has them too.
pub fn spelled(token: &Token) -> String {
    let name = KINDS[token.words().0 as usize];
    match value(token) {
        Some(value) => format!("{name} {value}"),
        None => name.to_string(),
    }
}

fn value(token: &Token) -> Option<String> {
    Some(match token {
        Token::Open | Token::Close | Token::Equal => return None,
        Token::U32(x) | Token::Lookup(x) => x.to_string(),
        Token::U64(x) => x.to_string(),
        Token::I32(x) => x.to_string(),
        Token::I64(x) => x.to_string(),
        Token::Bool(x) => x.to_string(),
        Token::Quoted(text) | Token::Unquoted(text) => hex(text),
        Token::F32(x) => hex(x),
        Token::F64(x) => hex(x),
        Token::Rgb(x) => {
            let channels: Vec<String> = [x.r, x.g, x.b].into_iter().chain(x.a).map(|x| x.to_string()).collect();
            channels.join(" ")
        }
        Token::Id(x) => x.to_string(),
    })
}

fn last_line(length: usize, tokens: &[(usize, Token)]) -> String {
    let mut depth = 0;
    let [mut containers, mut strays] = [0; 2];
    for (_, token) in tokens {
        match token {
            Token::Open => {
                containers += 1;
                depth += 1;
            }
            Token::Close if depth == 0 => strays += 1,
            Token::Close => depth -= 1,
            _ => {}
        }
    }
    let keys = keys(tokens).count();
    format!("end {length} tokens {} containers {containers} keys {keys} stray {strays}", tokens.len())
}
