//! The table of contents: a list filled from a save or from a file, searched, and written as a file.

mod fill;
mod long;
mod numbers;
mod search;
mod written;

pub use fill::{Fill, Origin};
pub use long::LongSave;
pub use search::{Holding, Search};
pub use written::Written;
