//! Tokens with their values, as the requests for a token spell them.

/// The kinds' names, in TokenKind's order.
pub const KINDS: [&str; 15] = [
    "open", "close", "equal", "u32", "u64", "i32", "bool", "quoted", "unquoted", "f32", "f64", "rgb", "i64", "lookup",
    "id",
];

#[derive(Clone, Copy, Debug, PartialEq, Eq, Hash)]
pub struct Colour {
    pub r: u32,
    pub g: u32,
    pub b: u32,
    pub a: Option<u32>,
}

impl Colour {
    /// Nothing where the words are no colour.
    pub fn of_words([r, g, b, has_alpha, alpha]: [u64; 5]) -> Option<Colour> {
        let channel = |word: u64| u32::try_from(word).ok();
        let a = match has_alpha {
            0 => None,
            1 => Some(channel(alpha)?),
            _ => return None,
        };
        Some(Colour { r: channel(r)?, g: channel(g)?, b: channel(b)?, a })
    }

    pub fn words(&self) -> [u64; 5] {
        let alpha = self.a.map_or([0, 0], |a| [1, u64::from(a)]);
        [self.r.into(), self.g.into(), self.b.into(), alpha[0], alpha[1]]
    }
}

#[derive(Clone, Debug, PartialEq, Eq, Hash)]
pub enum Token {
    Open,
    Close,
    Equal,
    U32(u32),
    U64(u64),
    I32(i32),
    Bool(bool),
    Quoted(Vec<u8>),
    Unquoted(Vec<u8>),
    F32([u8; 4]),
    F64([u8; 8]),
    Rgb(Colour),
    I64(i64),
    Lookup(u32),
    Id(u16),
}

impl Token {
    /// The kind's number, and the value's words; a string's text stands at the front of the bytes.
    pub fn words(&self) -> (u32, [u64; 5]) {
        let one = |word: u64| [word, 0, 0, 0, 0];
        match self {
            Token::Open => (0, one(0)),
            Token::Close => (1, one(0)),
            Token::Equal => (2, one(0)),
            Token::U32(x) => (3, one((*x).into())),
            Token::U64(x) => (4, one(*x)),
            Token::I32(x) => (5, one(i64::from(*x).cast_unsigned())),
            Token::Bool(x) => (6, one((*x).into())),
            Token::Quoted(text) => (7, [0, text.len() as u64, 0, 0, 0]),
            Token::Unquoted(text) => (8, [0, text.len() as u64, 0, 0, 0]),
            Token::F32(x) => (9, one(u32::from_le_bytes(*x).into())),
            Token::F64(x) => (10, one(u64::from_le_bytes(*x))),
            Token::Rgb(colour) => (11, colour.words()),
            Token::I64(x) => (12, one(x.cast_unsigned())),
            Token::Lookup(x) => (13, one((*x).into())),
            Token::Id(x) => (14, one((*x).into())),
        }
    }

    /// The token of a kind and its words, a string's text taken from the bytes. Nothing where there is no such kind, the
    /// words are no value of it, or the text does not lie within the bytes.
    pub fn of_words(kind: u32, words: [u64; 5], bytes: &[u8]) -> Option<Token> {
        let word = words[0];
        let text = || bytes.get(word as usize..)?.get(..words[1] as usize).map(<[u8]>::to_vec);
        Some(match kind {
            0 => Token::Open,
            1 => Token::Close,
            2 => Token::Equal,
            3 => Token::U32(word.try_into().ok()?),
            4 => Token::U64(word),
            5 => Token::I32(word.cast_signed().try_into().ok()?),
            6 => Token::Bool([false, true].get(usize::try_from(word).ok()?).copied()?),
            7 => Token::Quoted(text()?),
            8 => Token::Unquoted(text()?),
            9 => Token::F32(u32::try_from(word).ok()?.to_le_bytes()),
            10 => Token::F64(word.to_le_bytes()),
            11 => Token::Rgb(Colour::of_words(words)?),
            12 => Token::I64(word.cast_signed()),
            13 => Token::Lookup(word.try_into().ok()?),
            14 => Token::Id(word.try_into().ok()?),
            _ => return None,
        })
    }

    /// A string's text; of other tokens, nothing.
    pub fn text(&self) -> &[u8] {
        match self {
            Token::Quoted(text) | Token::Unquoted(text) => text,
            _ => &[],
        }
    }
}

/// A token as a writer is handed it: the words of a string say where its text stands in the bytes.
#[derive(Clone, Debug, PartialEq, Eq)]
pub struct Handed {
    pub kind: u32,
    pub words: [u64; 5],
    pub bytes: Vec<u8>,
}

impl Handed {
    /// Nothing where a text does not lie within the bytes.
    pub fn token(&self) -> Option<Token> {
        Token::of_words(self.kind, self.words, &self.bytes)
    }
}

impl From<Token> for Handed {
    fn from(token: Token) -> Handed {
        let (kind, words) = token.words();
        let bytes = match token {
            Token::Quoted(text) | Token::Unquoted(text) => text,
            _ => Vec::new(),
        };
        Handed { kind, words, bytes }
    }
}
