//! The port, through its C functions.
//!
//! Each function here lends the port an answer list of the caller's choosing and gives its code back, so that what the
//! port leaves alone can be seen too; `answer` is for callers who want the eight words only.

mod contents;
mod fast;
mod lexer;
mod requests;
mod saves;
mod source;
mod split;
mod writer;

pub use contents::{contents, contents_read, contents_search, contents_write};
pub use fast::next_token_fast;
pub use lexer::{count_tokens, find_key, is_id, kind, lex, text};
pub use requests::answer_request;
pub use saves::{list, rescue, respell};
pub use source::{Lists, new_source, source};
pub use split::split;
pub use writer::write;

use protocol::{Answer, WORDS};

pub fn answer(call: impl FnOnce(&mut [u64]) -> u32) -> Answer {
    let mut words = [0; WORDS];
    let code = call(&mut words);
    Answer { code, words }
}
