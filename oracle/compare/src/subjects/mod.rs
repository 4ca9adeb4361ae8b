//! The questions, one module for each family of calls.

mod contents;
mod count;
mod fast;
mod find;
mod kept;
mod kind;
mod lexer;
mod limit;
mod program;
mod settled;
mod short;
mod source;
mod split;
mod text;
mod whole;
mod write;

pub use contents::{Fill, Holding, LongSave, Origin, Search, Written};
pub use count::Count;
pub use fast::Fast;
pub use find::Find;
pub use kept::Kept;
pub use kind::Kind;
pub use lexer::Lex;
pub use limit::Limit;
pub use program::{Printed, Program};
pub use settled::Settled;
pub use short::Short;
pub use source::{BadLists, NewSource, STATE_ROOM, Sequence, SourceLine, lent_words};
pub use split::Split;
pub use text::Text;
pub use whole::{Form, Whole};
pub use write::Write;
