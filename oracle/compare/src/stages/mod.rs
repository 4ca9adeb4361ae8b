//! What is asked, from the smallest inputs to the largest.

mod boundary;
mod contents;
mod exhaustive;
mod fast;
mod few_tokens;
mod finding;
mod generated;
mod programs;
mod rescuing;
mod short_lists;
pub mod source;
mod specimens;
mod sweep;
mod whole;
mod writing;

pub use boundary::boundary;
pub use contents::{changed, contents, file_of, many_entries};
pub use exhaustive::{all_ids, all_kinds, all_short_inputs, splits};
pub use fast::fast;
pub use few_tokens::few_tokens;
pub use finding::finding;
pub use generated::generated;
pub use programs::programs;
pub use rescuing::rescuing;
pub use short_lists::short_lists;
pub use source::sources;
pub use specimens::{specimen_requests, specimens};
pub use whole::whole;
pub use writing::{FEW_VALUES, of_number, writing};
