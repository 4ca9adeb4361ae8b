//! The spellings that a token can be written in.

#[derive(Clone, Copy, Debug, PartialEq, Eq)]
pub enum Spelling {
    Normal,
    Shortest,
}

impl Spelling {
    pub const ALL: [Spelling; 2] = [Spelling::Normal, Spelling::Shortest];

    /// The request for a token.
    pub fn of_token(self) -> &'static str {
        match self {
            Spelling::Normal => "write",
            Spelling::Shortest => "shortest",
        }
    }

    /// The request for all tokens of a save.
    pub fn of_save(self) -> &'static str {
        match self {
            Spelling::Normal => "normal",
            Spelling::Shortest => "shorten",
        }
    }
}
