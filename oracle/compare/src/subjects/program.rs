//! A program's output for a save on its standard input.

use crate::case::Case;
use crate::dump::dump;
use crate::lent::shortened;
use crate::respelled::respelled;
use crate::shrink::{cuts, without, zeroed};
use protocol::{Spelling, code, hex};
use std::borrow::Cow;
use std::io::{ErrorKind, Write};
use std::path::Path;
use std::process::{ChildStdin, Command, Output, Stdio};
use std::thread;
use std::time::Duration;

#[derive(Clone, Copy, Debug, PartialEq, Eq)]
pub enum Program {
    Dump,
    Normal,
}

impl Program {
    pub const ALL: [Program; 2] = [Program::Dump, Program::Normal];

    pub fn name(self) -> &'static str {
        match self {
            Program::Dump => "dump",
            Program::Normal => "normal",
        }
    }

    /// The longest input that it takes.
    pub fn longest(self) -> usize {
        match self {
            Program::Dump => 32_768,
            Program::Normal => 8_192,
        }
    }

    /// What FORMAT.md has it print.
    pub fn prints(self, bytes: &[u8]) -> Vec<u8> {
        if bytes.len() > self.longest() {
            return b"too long\n".to_vec();
        }
        match self {
            Program::Dump => dump(bytes).into_bytes(),
            Program::Normal => respelled(Spelling::Normal, bytes).unwrap_or_else(|refused| {
                let name = match refused.code {
                    code::EOF => "eof",
                    code::INVALID_RGB => "rgb",
                    _ => "wide",
                };
                format!("error {name} {}\n", refused.words[1]).into_bytes()
            }),
        }
    }
}

pub struct Printed<'a> {
    pub program: Program,
    /// Where it is.
    pub place: &'a Path,
    pub bytes: Cow<'a, [u8]>,
    /// The input comes in so many pieces, with a pause after each but the last.
    pub pieces: usize,
}

/// Not shown whole.
const LONG: usize = 1000;
const PAUSE: Duration = Duration::from_millis(2);

impl<'a> Printed<'a> {
    fn with(&self, bytes: Vec<u8>) -> Printed<'a> {
        Printed { program: self.program, place: self.place, bytes: Cow::Owned(bytes), pieces: self.pieces }
    }

    fn run(&self) -> Output {
        let mut command = Command::new(self.place);
        command.stdin(Stdio::piped()).stdout(Stdio::piped()).stderr(Stdio::piped());
        let mut child = command.spawn().unwrap_or_else(|error| panic!("{}: {error}", self.place.display()));
        let stdin = child.stdin.take().expect("a pipe");
        thread::scope(|scope| {
            scope.spawn(|| self.feed(stdin));
            child.wait_with_output().expect("the program ends")
        })
    }

    /// A program may leave off reading.
    fn feed(&self, mut stdin: ChildStdin) {
        let size = self.bytes.len().div_ceil(self.pieces).max(1);
        for (at, piece) in self.bytes.chunks(size).enumerate() {
            if at > 0 {
                thread::sleep(PAUSE);
            }
            if let Err(error) = stdin.write_all(piece) {
                assert_eq!(error.kind(), ErrorKind::BrokenPipe, "{}: {error}", self.program.name());
                return;
            }
        }
    }
}

impl Case for Printed<'_> {
    /// Standard output, standard error, and whether the program came to its own end.
    type Seen = (Vec<u8>, Vec<u8>, bool);

    fn name(&self) -> &'static str {
        match self.program {
            Program::Dump => "the program dump",
            Program::Normal => "the program normal",
        }
    }

    fn expected(&self) -> Self::Seen {
        (self.program.prints(&self.bytes), Vec::new(), true)
    }

    fn port(&self) -> Self::Seen {
        let output = self.run();
        (output.stdout, output.stderr, output.status.code().is_some())
    }

    fn smaller(&self) -> impl Iterator<Item = Self> {
        let whole = (self.pieces > 1).then(|| Printed { pieces: 1, ..self.with(self.bytes.to_vec()) });
        let shorter = cuts(self.bytes.len()).map(|cut| self.with(without(&self.bytes, &cut)));
        let plainer = zeroed(&self.bytes).map(|bytes| self.with(bytes));
        whole.into_iter().chain(shorter).chain(plainer)
    }

    fn request(&self) -> String {
        let bytes = if self.bytes.len() < LONG { hex(&self.bytes) } else { shortened(&self.bytes) };
        format!("{} on {bytes}, in pieces: {}", self.program.name(), self.pieces)
    }

    fn show(&self, (out, error, ended): &Self::Seen) -> String {
        let text = |bytes: &[u8]| bytes[..bytes.len().min(LONG)].escape_ascii().to_string();
        let ended = if *ended { "" } else { ", killed" };
        format!("{} bytes \"{}\", errors \"{}\"{ended}", out.len(), text(out), text(error))
    }
}
