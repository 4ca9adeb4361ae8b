//! FORMAT.md's specimens, with its words for their answers.

use super::finding::every_cursor;
use super::sweep::every_place;
use crate::case::Case;
use crate::dump::dump;
use crate::lent::SeenLent;
use crate::offsets::{at_each, bad_place};
use crate::run::Run;
use crate::subjects::{Fill, Form, Origin, Search, Whole, Write, Written};
use protocol::{Request, find_line, output_line, rescue_line, search_line};

/// Request and answer, one specimen a line.
const SPECIMENS: &str = include_str!("specimens.txt");

/// The original must answer as FORMAT.md says, and so must the port.
struct Specimen {
    /// The request's.
    line: &'static str,
    request: Request,
    answer: &'static str,
}

fn all() -> impl Iterator<Item = Specimen> {
    SPECIMENS.lines().map(|text| {
        let (line, answer) = text.split_once(" => ").unwrap_or_else(|| panic!("not request => answer: {text}"));
        let request = Request::parse(line).unwrap_or_else(|| panic!("no request: {line}"));
        Specimen { line, request, answer }
    })
}

/// The requests alone: as they stand in their lines, and parsed.
pub fn specimen_requests() -> impl Iterator<Item = (&'static str, Request)> {
    all().map(|specimen| (specimen.line, specimen.request))
}

impl Case for Specimen {
    /// The original's line and the port's.
    type Seen = [String; 2];

    fn name(&self) -> &'static str {
        "specimens"
    }

    fn expected(&self) -> [String; 2] {
        [self.answer.to_string(), self.answer.to_string()]
    }

    fn port(&self) -> [String; 2] {
        [original_line(&self.request), port::answer_request(&self.request)]
    }

    fn smaller(&self) -> impl Iterator<Item = Self> {
        std::iter::empty()
    }

    fn request(&self) -> String {
        self.line.to_string()
    }

    fn show(&self, [original, port]: &[String; 2]) -> String {
        format!("{port} (the original: {original})")
    }
}

/// The original has no call for a whole save, no shortest spelling, no dump and no rescue: they are made from its tokens. A table of
/// contents that is searched, written or read is answered in FORMAT.md's words.
fn original_line(request: &Request) -> String {
    let line = |seen: SeenLent| output_line(&seen.seen.answer(), seen.lent());
    match request {
        Request::Write { spelling, room, token } => {
            line(Write::new(*spelling, &token.bytes, token.kind, &token.words, *room).expected())
        }
        Request::Save { spelling, room, bytes } => line(Whole::new(Form::Spelled(*spelling), bytes, *room).expected()),
        Request::Rescue { room, bytes } => {
            let seen = Whole::new(Form::Rescued, bytes, *room).expected();
            rescue_line(&seen.seen.answer(), seen.lent())
        }
        Request::TocSearch { list, position } => {
            search_line(&Search::new(list.as_flattened(), *position).expected().answer())
        }
        Request::TocWrite { room, list } => line(Written::new(list.as_flattened(), *room).expected()),
        Request::TocRead { capacity, file } => {
            let read = Fill::new(Origin::File, file, 2 * capacity);
            read.line(&read.expected())
        }
        Request::Dump { bytes } => dump(bytes).trim_end().replace('\n', " | "),
        _ => original::answer_request(request).unwrap_or_else(|| refused_line(request)),
    }
}

/// A cursor where the original cannot stand.
fn refused_line(request: &Request) -> String {
    let refused = match request {
        Request::Lex { bytes, at, offset, .. } | Request::Find { bytes, at, offset, .. } => {
            bad_place(bytes, *at, *offset)
        }
        _ => None,
    };
    find_line(&refused.expect("the original has the call"))
}

pub fn specimens(run: &mut Run) {
    for specimen in all() {
        run.check(&specimen);
        match &specimen.request {
            Request::Lex { bytes, .. } => every_place(run, bytes, at_each),
            Request::Find { bytes, .. } => every_cursor(run, bytes),
            _ => {}
        }
    }
}

#[cfg(test)]
mod tests {
    use super::original_line;
    use protocol::Request;

    const EXAMPLES: &str = include_str!("../../../calls/examples");

    /// The protocol page's, but for the saves that are too long, which the original would read.
    #[test]
    fn examples_in_our_words() {
        let lines: Vec<&str> = EXAMPLES.lines().collect();
        let (pairs, _) = lines.as_chunks::<2>();
        let ours =
            |request: &str| ["toc", "rescue"].iter().any(|word| request.starts_with(word)) && !request.contains('*');
        let mut asked = 0;
        for [line, wanted] in pairs.iter().filter(|[line, _]| ours(line)) {
            let request = Request::parse(line).unwrap_or_else(|| panic!("not understood: {line}"));
            assert_eq!(original_line(&request), *wanted, "{line}");
            asked += 1;
        }
        assert_eq!(asked, 27);
    }
}
