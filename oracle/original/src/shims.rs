//! What the original files take from files that are not at hand. All of it is plain: fields, and errors that keep
//! what they are given.

use crate::source::ParserError;
use std::io;

#[derive(Debug, Clone, Copy, PartialEq, Eq)]
pub struct Rgb {
    pub r: u32,
    pub g: u32,
    pub b: u32,
    pub a: Option<u32>,
}

impl From<Rgb> for protocol::Colour {
    fn from(Rgb { r, g, b, a }: Rgb) -> Self {
        protocol::Colour { r, g, b, a }
    }
}

/// What the source's `read_rgb` refuses with.
#[derive(Debug)]
pub enum Error {
    Syntax { offset: usize },
    Source(ParserError),
}

impl Error {
    pub fn invalid_syntax(_message: &str, offset: usize) -> Error {
        Error::Syntax { offset }
    }
}

impl From<ParserError> for Error {
    fn from(error: ParserError) -> Error {
        Error::Source(error)
    }
}

/// Only the TokenReader's calls that are left behind make one.
#[derive(Debug)]
#[allow(dead_code)]
pub struct ReaderError {
    position: usize,
    kind: ReaderErrorKind,
}

#[derive(Debug)]
#[allow(dead_code)]
pub enum ReaderErrorKind {
    Eof,
    BufferTooSmall,
    Read(io::ErrorKind),
    InvalidRgb,
}

impl ReaderError {
    pub fn new(position: usize, kind: ReaderErrorKind) -> ReaderError {
        ReaderError { position, kind }
    }
}

/// Only Scalar's display asks for it.
pub fn decode_windows1252(bytes: &[u8]) -> String {
    bytes.iter().copied().map(char::from).collect()
}
