//! One token into a lent output, by either writer.

use crate::case::Case;
use crate::dump::spelled;
use crate::lent::{Lend, SHORTENED, SeenLent, output, shortened};
use crate::listed::Listed;
use crate::shrink::{cuts, less, without};
use crate::spelling::spell;
use protocol::{Answer, KINDS, Spelling, Token, code, hex, output_line};
use std::borrow::Cow;

#[derive(Clone)]
pub struct Write<'a> {
    spelling: Spelling,
    /// A string's text is a part of these.
    bytes: Cow<'a, [u8]>,
    kind: u32,
    words: Vec<u64>,
    room: usize,
}

/// What is handed over.
enum Given {
    NoToken,
    BadPlace(usize),
    Token(Token),
}

/// The kinds whose words are a text's place.
const STRINGS: [u32; 2] = [7, 8];

impl<'a> Write<'a> {
    pub fn new(spelling: Spelling, bytes: &'a [u8], kind: u32, words: &[u64], room: usize) -> Write<'a> {
        Write { spelling, bytes: Cow::Borrowed(bytes), kind, words: words.to_vec(), room }
    }

    /// A string's text is all of the bytes.
    pub fn token(spelling: Spelling, token: &'a Token, room: usize) -> Write<'a> {
        let (kind, words) = token.words();
        Write::new(spelling, token.text(), kind, &words, room)
    }

    fn given(&self) -> Given {
        let Some(words) = self.words.first_chunk::<5>() else {
            return Given::NoToken;
        };
        match Token::of_words(self.kind, *words, &self.bytes) {
            Some(token) => Given::Token(token),
            None if STRINGS.contains(&self.kind) => Given::BadPlace(words[0] as usize),
            None => Given::NoToken,
        }
    }

    fn plainer(&self) -> impl Iterator<Item = Self> {
        let at = 0..self.words.len();
        let words = at.flat_map(|at| less(self.words[at] as usize).map(move |word| (at, word)));
        words.map(|(at, word)| {
            let mut plainer = self.clone();
            plainer.words[at] = word as u64;
            plainer
        })
    }

    /// As a request has it, where it can be said in few words.
    fn token_words(&self) -> Option<String> {
        if STRINGS.contains(&self.kind) {
            return self.string_words();
        }
        match self.given() {
            Given::Token(token) if self.bytes.is_empty() && self.words == token.words().1 => Some(spelled(&token)),
            _ => None,
        }
    }

    fn string_words(&self) -> Option<String> {
        let [start, len, 0, 0, 0] = self.words[..] else {
            return None;
        };
        let bytes = match &self.bytes[..] {
            few if few.len() < SHORTENED => hex(few),
            zeros if zeros.iter().all(|byte| *byte == 0) => format!("*{}", zeros.len()),
            _ => return None,
        };
        let all = (start, len) == (0, self.bytes.len() as u64);
        let place = if all { String::new() } else { format!("{start} {len} ") };
        Some(format!("{} {place}{bytes}", KINDS[self.kind as usize]))
    }
}

impl Lend for Write<'_> {
    type Unit = u8;

    fn lent(&self) -> Vec<u8> {
        output(self.room)
    }

    fn ask(&self, lent: &mut [u8], answer: &mut [u64]) -> u32 {
        port::write(self.spelling, &self.bytes, self.kind, &self.words, lent, answer)
    }
}

impl Case for Write<'_> {
    type Seen = SeenLent;

    fn name(&self) -> &'static str {
        match self.spelling {
            Spelling::Normal => "write",
            Spelling::Shortest => "write_shortest",
        }
    }

    fn expected(&self) -> SeenLent {
        let refused = |code, value| SeenLent::answered(self, Answer::refused(code, 0, value));
        match self.given() {
            Given::NoToken => SeenLent::untouched(self, code::BAD_ARGUMENT),
            Given::BadPlace(start) => refused(code::BAD_PLACE, start),
            Given::Token(token) => match spell(self.spelling, &token) {
                Ok(spelling) => SeenLent::whole(self, self.room, &spelling),
                Err(code) => refused(code, 0),
            },
        }
    }

    fn port(&self) -> SeenLent {
        SeenLent::port(self)
    }

    fn listed(&self) -> Option<Listed> {
        Listed::of_writing(self.expected().seen.code)
    }

    fn original(&self) -> Option<String> {
        let Given::Token(token) = self.given() else {
            return None;
        };
        let mut out = output(self.room);
        Some(match original::write(&token, &mut out) {
            Some(count) => format!("ok {count} {}", shortened(&out[..count])),
            None => format!("an error, and in the output {}", shortened(&out)),
        })
    }

    fn smaller(&self) -> impl Iterator<Item = Self> {
        let rooms = less(self.room).map(|room| Write { room, ..self.clone() });
        let shorter =
            cuts(self.bytes.len()).map(|cut| Write { bytes: Cow::Owned(without(&self.bytes, &cut)), ..self.clone() });
        let fewer = less(self.words.len()).map(|count| Write { words: self.words[..count].to_vec(), ..self.clone() });
        rooms.chain(shorter).chain(fewer).chain(self.plainer())
    }

    fn request(&self) -> String {
        let (request, room) = (self.spelling.of_token(), self.room);
        if let Some(token) = self.token_words() {
            return format!("{request} {room} {token}");
        }
        let name = KINDS.get(self.kind as usize).copied().unwrap_or("no kind");
        let words: Vec<String> = self.words.iter().map(u64::to_string).collect();
        let (kind, words) = (self.kind, words.join(" "));
        format!("{request} {room} {name}, as kind {kind}, words {words}, bytes {}", shortened(&self.bytes))
    }

    fn show(&self, seen: &SeenLent) -> String {
        let refused = ![code::ANSWERED, code::BAD_ARGUMENT].contains(&seen.seen.code);
        let line = if refused { output_line(&seen.seen.answer(), &[]) + "   words " } else { String::new() };
        line + &seen.raw(self)
    }
}
