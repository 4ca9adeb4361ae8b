//! A request on a source whose state fits, as `calls` has it.

use crate::case::Case;
use protocol::Request;

pub struct SourceLine(pub String);

impl SourceLine {
    fn parsed(&self) -> Request {
        Request::parse(&self.0).unwrap_or_else(|| panic!("no request: {}", self.0))
    }
}

impl Case for SourceLine {
    type Seen = String;

    fn name(&self) -> &'static str {
        "source requests"
    }

    fn expected(&self) -> String {
        original::answer_request(&self.parsed()).unwrap_or_else(|| panic!("not for the original: {}", self.0))
    }

    fn port(&self) -> String {
        port::answer_request(&self.parsed())
    }

    /// `Sequence` makes its own smaller.
    fn smaller(&self) -> impl Iterator<Item = Self> {
        std::iter::empty()
    }

    fn request(&self) -> String {
        self.0.clone()
    }

    fn show(&self, line: &String) -> String {
        line.clone()
    }
}
