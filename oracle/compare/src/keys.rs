//! The keys of a save as FORMAT.md words them, from the original's tokens.

use protocol::Token;

/// With their positions, in file order: tokens other than Open, Close and Equal, at depth 0, directly followed by
/// Equal, or directly followed by Open and not themselves directly after an Equal.
pub fn keys(tokens: &[(usize, Token)]) -> impl Iterator<Item = &(usize, Token)> {
    let mut depth = 0usize;
    tokens.iter().enumerate().filter_map(move |(place, found)| {
        match found.1 {
            Token::Open => depth += 1,
            Token::Close => depth = depth.saturating_sub(1),
            Token::Equal => {}
            _ => return (depth == 0 && key_beside(tokens, place)).then_some(found),
        }
        None
    })
}

/// Whether a token is a key by the tokens beside it.
fn key_beside(tokens: &[(usize, Token)], place: usize) -> bool {
    match tokens.get(place + 1).map(|(_, after)| after) {
        Some(Token::Equal) => true,
        Some(Token::Open) => place == 0 || tokens[place - 1].1 != Token::Equal,
        _ => false,
    }
}

#[cfg(test)]
mod tests {
    use super::keys;
    use protocol::{Colour, Token};

    /// A letter a token: `a` and `b` plain ids, `n` a number, `c` a colour.
    fn token(letter: char) -> Token {
        match letter {
            '{' => Token::Open,
            '}' => Token::Close,
            '=' => Token::Equal,
            'n' => Token::U32(7),
            'c' => Token::Rgb(Colour { r: 1, g: 2, b: 3, a: None }),
            _ => Token::Id(letter as u16),
        }
    }

    /// The tokens, with a caret below each key.
    #[test]
    fn keys_by_where_they_stand() {
        let cases = [
            ["", ""],
            ["a", " "],
            ["a=b", "^  "],
            ["a=", "^ "],
            ["a{}", "^  "],
            ["a{", "^ "],
            ["a={}", "^   "],
            ["a=b{}", "^    "],
            ["a=b={}", "^ ^   "],
            ["=a{}", "    "],
            ["=a={}", " ^   "],
            ["==a{}b{}", "     ^  "],
            ["=ab{}", "  ^  "],
            ["a=nb{}", "^  ^  "],
            ["ab{}", " ^  "],
            ["a{b{}}", "^     "],
            ["a{b=n}c{}", "^     ^  "],
            ["{a{}}", "     "],
            ["{a=b}", "     "],
            ["a{{}}", "^    "],
            ["a{}{}", "^    "],
            ["a={}{}b{}", "^     ^  "],
            ["a={}b{}", "^   ^  "],
            ["}a{}", " ^  "],
            ["=}a{}", "  ^  "],
            ["={a{}}", "      "],
            ["={}a{}", "   ^  "],
            ["n{}", "^  "],
            ["n=", "^ "],
            ["c{}", "^  "],
            ["c=n", "^  "],
            ["ac", "  "],
            ["a=c{}", "^    "],
            ["acb{}", "  ^  "],
            ["{}={}}{}", "        "],
        ];
        for [letters, carets] in cases {
            let tokens: Vec<(usize, Token)> = letters.chars().map(token).enumerate().collect();
            let mut found = vec![b' '; letters.len()];
            for (place, _) in keys(&tokens) {
                found[*place] = b'^';
            }
            assert_eq!(str::from_utf8(&found), Ok(carets), "{letters}");
        }
    }
}
