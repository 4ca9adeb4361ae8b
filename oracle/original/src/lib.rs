//! The original, compiled unchanged and in place (`build/main.rs` finds it), and calls on it in this project's terms.
//!
//! The modules stand where the original's own crate has them, since its files name each other by those paths. Our
//! own files inside them see what is private there.

mod calls;
mod counted;
mod missing;
mod offset;
mod requests;
mod shims;
mod write;

use shims::{Error, ReaderError, ReaderErrorKind, decode_windows1252};

pub use binary::reader::fast::{FAST_WINDOW, Fast, next_token_fast, step_fast};
pub use calls::{contents, count_tokens, find_key, is_id, kind, lex, skip_container, split, text};
pub use counted::LARGEST_COUNT;
pub use offset::{find_key as find_key_in_file, fits, grown, lex as lex_in_file};
pub use requests::answer_request;
pub use scalar::Scalar;
pub use source::window::{Window, has_op};
pub use write::{normalise, one_token, reads_back, spelling, tokens, write};

/// Where the files are from.
pub const ORIGIN: &str = env!("JOMINI_ORIGIN");

#[allow(dead_code, clippy::all)]
mod util {
    include!(env!("JOMINI_UTIL"));
}

#[allow(dead_code, clippy::all)]
mod scalar {
    include!(env!("JOMINI_SCALAR"));
}

#[allow(dead_code, clippy::all)]
mod source {
    include!(env!("JOMINI_SOURCE"));

    #[warn(dead_code, clippy::all)]
    pub mod window;
}

mod binary {
    pub use super::shims::Rgb;
    pub use super::source::{ParserError, ParserSource};
    pub use lexer::{LexError, LexemeId, Lexer, LexerError, Token};

    #[allow(dead_code, clippy::all)]
    pub mod lexer {
        include!(env!("JOMINI_BINARY_LEXER"));
    }

    #[allow(dead_code, clippy::all)]
    pub mod reader {
        include!(env!("JOMINI_BINARY_READER"));

        #[warn(dead_code, clippy::all)]
        pub mod fast;
    }
}
