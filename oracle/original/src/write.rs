//! Token::write, alone and over a whole save.

use crate::Scalar;
use crate::binary::{self, Lexer, Rgb};
use crate::calls::refused_token;
use protocol::{Answer, Token, code};

/// Writes into `out`; how many bytes, or nothing where it has no room (what was written stays).
pub fn write(token: &Token, out: &mut [u8]) -> Option<usize> {
    let room = out.len();
    let mut rest = out;
    original_token(token).write(&mut rest).ok()?;
    Some(room - rest.len())
}

/// All that it writes, given room.
pub fn spelling(token: &Token) -> Vec<u8> {
    let mut out = Vec::new();
    original_token(token).write(&mut out).expect("a Vec has room");
    out
}

/// Whether reading finds the token in what is written for it, and nothing more.
pub fn reads_back(token: &Token, spelling: &[u8]) -> bool {
    let mut lexer = Lexer::new(spelling);
    let found = lexer.read_token().is_ok_and(|found| found == original_token(token));
    found && lexer.remainder().is_empty()
}

/// The token that all of the bytes are.
pub fn one_token(bytes: &[u8]) -> Option<Token> {
    let mut lexer = Lexer::new(bytes);
    let token = lexer.read_token().ok()?;
    lexer.remainder().is_empty().then(|| own_token(token))
}

/// A save's tokens with their places, and how the reading ends, as `count_tokens` has it.
pub fn tokens(bytes: &[u8]) -> (Vec<(usize, Token)>, Answer) {
    let mut lexer = Lexer::new(bytes);
    let mut tokens = Vec::new();
    loop {
        let at = lexer.position();
        match lexer.next_token() {
            Ok(Some(token)) => tokens.push((at, own_token(token))),
            Ok(None) => {
                let count = tokens.len() as u64;
                return (tokens, Answer::found(at, &[count]));
            }
            Err(error) => return (tokens, refused_token(bytes, error, at)),
        }
    }
}

/// One pass: each token written as soon as it is read. What a refusal leaves behind stays.
pub fn normalise(bytes: &[u8], out: &mut [u8]) -> Answer {
    let room = out.len();
    let mut rest = out;
    let mut lexer = Lexer::new(bytes);
    loop {
        match lexer.next_token() {
            Ok(Some(token)) => {
                if token.write(&mut rest).is_err() {
                    return Answer::refused(code::NO_ROOM, 0, 0);
                }
            }
            Ok(None) => return Answer::found(room - rest.len(), &[]),
            Err(error) => return refused_token(bytes, error, 0),
        }
    }
}

fn original_token(token: &Token) -> binary::Token<'_> {
    match token {
        Token::Open => binary::Token::Open,
        Token::Close => binary::Token::Close,
        Token::Equal => binary::Token::Equal,
        Token::U32(x) => binary::Token::U32(*x),
        Token::U64(x) => binary::Token::U64(*x),
        Token::I32(x) => binary::Token::I32(*x),
        Token::Bool(x) => binary::Token::Bool(*x),
        Token::Quoted(x) => binary::Token::Quoted(Scalar::new(x)),
        Token::Unquoted(x) => binary::Token::Unquoted(Scalar::new(x)),
        Token::F32(x) => binary::Token::F32(*x),
        Token::F64(x) => binary::Token::F64(*x),
        Token::Rgb(x) => binary::Token::Rgb(Rgb { r: x.r, g: x.g, b: x.b, a: x.a }),
        Token::I64(x) => binary::Token::I64(*x),
        Token::Lookup(x) => binary::Token::Lookup(*x),
        Token::Id(x) => binary::Token::Id(*x),
    }
}

fn own_token(token: binary::Token) -> Token {
    match token {
        binary::Token::Open => Token::Open,
        binary::Token::Close => Token::Close,
        binary::Token::Equal => Token::Equal,
        binary::Token::U32(x) => Token::U32(x),
        binary::Token::U64(x) => Token::U64(x),
        binary::Token::I32(x) => Token::I32(x),
        binary::Token::Bool(x) => Token::Bool(x),
        binary::Token::Quoted(x) => Token::Quoted(x.as_bytes().to_vec()),
        binary::Token::Unquoted(x) => Token::Unquoted(x.as_bytes().to_vec()),
        binary::Token::F32(x) => Token::F32(x),
        binary::Token::F64(x) => Token::F64(x),
        binary::Token::Rgb(x) => Token::Rgb(x.into()),
        binary::Token::I64(x) => Token::I64(x),
        binary::Token::Lookup(x) => Token::Lookup(x),
        binary::Token::Id(x) => Token::Id(x),
    }
}
