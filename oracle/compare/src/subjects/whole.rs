//! What is made of a whole save, in a lent output.

use crate::case::Case;
use crate::dump::dump;
use crate::lent::{Lend, SeenLent, output};
use crate::listed::Listed;
use crate::rescued::rescued;
use crate::respelled::respelled;
use crate::shrink::{cuts, less, without, zeroed};
use protocol::{Answer, Spelling, dump_line, hex, output_line, rescue_line};
use std::borrow::Cow;
use std::cell::OnceCell;

#[derive(Clone, Copy, Debug, PartialEq, Eq)]
pub enum Form {
    Spelled(Spelling),
    Dump,
    Rescued,
}

/// What is made of a save, and what is told of it beside its length: of most forms nothing.
type Made = (Vec<u8>, [u64; 3]);

impl Form {
    pub const ALL: [Form; 4] =
        [Form::Spelled(Spelling::Normal), Form::Spelled(Spelling::Shortest), Form::Dump, Form::Rescued];

    /// The port's function.
    pub fn name(self) -> &'static str {
        match self {
            Form::Spelled(Spelling::Normal) => "normalise",
            Form::Spelled(Spelling::Shortest) => "shorten",
            Form::Dump => "list",
            Form::Rescued => "rescue",
        }
    }

    pub fn by_port(self, bytes: &[u8], out: &mut [u8], answer: &mut [u64]) -> u32 {
        match self {
            Form::Spelled(spelling) => port::respell(spelling, bytes, out, answer),
            Form::Dump => port::list(bytes, out, answer),
            Form::Rescued => port::rescue(bytes, out, answer),
        }
    }

    /// Made from the original's tokens.
    fn expected(self, bytes: &[u8]) -> Result<Made, Answer> {
        match self {
            Form::Spelled(spelling) => respelled(spelling, bytes).map(|made| (made, [0; 3])),
            Form::Dump => Ok((dump(bytes).into_bytes(), [0; 3])),
            Form::Rescued => {
                let rescued = rescued(bytes);
                let told = rescued.told();
                Ok((rescued.save, told))
            }
        }
    }
}

#[derive(Clone)]
pub struct Whole<'a> {
    form: Form,
    bytes: Cow<'a, [u8]>,
    room: usize,
    /// What should be made of them, once it was asked for.
    made: OnceCell<Result<Made, Answer>>,
}

impl<'a> Whole<'a> {
    pub fn new(form: Form, bytes: &'a [u8], room: usize) -> Whole<'a> {
        Whole { form, bytes: Cow::Borrowed(bytes), room, made: OnceCell::new() }
    }

    fn with(&self, bytes: Vec<u8>) -> Whole<'a> {
        Whole { bytes: Cow::Owned(bytes), made: OnceCell::new(), ..*self }
    }

    pub fn with_room(&self, room: usize) -> Whole<'a> {
        Whole { room, ..self.clone() }
    }

    fn made(&self) -> &Result<Made, Answer> {
        self.made.get_or_init(|| self.form.expected(&self.bytes))
    }

    /// The room that it wants; where it is refused, as much as the save has.
    pub fn need(&self) -> usize {
        self.made().as_ref().map_or(self.bytes.len(), |(made, _)| made.len())
    }
}

impl Lend for Whole<'_> {
    type Unit = u8;

    fn lent(&self) -> Vec<u8> {
        output(self.room)
    }

    fn ask(&self, lent: &mut [u8], answer: &mut [u64]) -> u32 {
        self.form.by_port(&self.bytes, lent, answer)
    }
}

impl Case for Whole<'_> {
    type Seen = SeenLent;

    fn name(&self) -> &'static str {
        self.form.name()
    }

    fn expected(&self) -> SeenLent {
        match self.made() {
            Ok((made, told)) => SeenLent::whole_telling(self, self.room, made, told),
            Err(refused) => SeenLent::answered(self, *refused),
        }
    }

    fn port(&self) -> SeenLent {
        SeenLent::port(self)
    }

    /// The original has no call for a whole save; its writer would write low bytes of a token, and a part of another.
    fn listed(&self) -> Option<Listed> {
        match self.form {
            Form::Spelled(_) => Listed::of_writing(self.expected().seen.code),
            Form::Dump | Form::Rescued => None,
        }
    }

    fn smaller(&self) -> impl Iterator<Item = Self> {
        let shorter = cuts(self.bytes.len()).map(|cut| self.with(without(&self.bytes, &cut)));
        let rooms = less(self.room).map(|room| self.with_room(room));
        let plainer = zeroed(&self.bytes).map(|bytes| self.with(bytes));
        shorter.chain(rooms).chain(plainer)
    }

    fn request(&self) -> String {
        match self.form {
            Form::Spelled(spelling) => format!("{} {} {}", spelling.of_save(), self.room, hex(&self.bytes)),
            Form::Rescued => format!("rescue {} {}", self.room, hex(&self.bytes)),
            Form::Dump => format!("dump {} with room for {}", hex(&self.bytes), self.room),
        }
    }

    fn show(&self, seen: &SeenLent) -> String {
        let line = match self.form {
            Form::Spelled(_) => output_line(&seen.seen.answer(), seen.lent()),
            Form::Dump => dump_line(&seen.seen.answer(), seen.lent()),
            Form::Rescued => rescue_line(&seen.seen.answer(), seen.lent()),
        };
        format!("{line}   words {}", seen.raw(self))
    }
}
