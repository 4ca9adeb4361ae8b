//! Tables of contents, as requests and answers have them: `START-END` with commas, `-` for none.

use crate::request::number;

/// An entry's start and end.
pub type Span = [u32; 2];

/// A record before a call. No entry ends before it starts, so that one that is left alone shows.
pub const UNTOUCHED: Span = [u32::MAX, 0];

pub(crate) fn list(word: &str) -> Option<Vec<Span>> {
    if word == "-" {
        return Some(Vec::new());
    }
    word.split(',').map(span).collect()
}

fn span(word: &str) -> Option<Span> {
    let (start, end) = word.split_once('-')?;
    Some([number(start)?, number(end)?])
}

/// A record that holds what it held before the call is `_`.
pub fn list_words(list: &[Span]) -> String {
    if list.is_empty() {
        return "-".to_string();
    }
    let record = |span: &Span| match span {
        &UNTOUCHED => "_".to_string(),
        [start, end] => format!("{start}-{end}"),
    };
    list.iter().map(record).collect::<Vec<String>>().join(",")
}
