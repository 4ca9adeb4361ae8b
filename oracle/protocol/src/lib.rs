//! What the original, the port and the programs here say to each other: the calls, their answers
//! as the C functions give them, and the request and answer lines of the `calls` program.

mod answer;
mod call;
mod contents;
mod hex;
mod request;
mod show;
mod source;
mod spelling;
mod token;

pub use answer::{Answer, WORDS, code};
pub use call::{Call, Shape};
pub use contents::{Span, UNTOUCHED, list_words};
pub use hex::{hex, unhex};
pub use request::Request;
pub use show::{
    contents_line, dump_line, fast_line, find_line, kind_line, lex_line, output_line, rescue_line, search_line,
    split_line,
};
pub use source::{Got, Numbers, Op, STATE_WORDS, Source, State, source_line};
pub use spelling::Spelling;
pub use token::{Colour, Handed, KINDS, Token};
