//! What can be rescued of a save, as FORMAT.md words it, from where the original's tokens begin and end.

use protocol::{Token, code};

#[derive(Clone, Debug, Default, PartialEq, Eq)]
pub struct Rescued {
    pub save: Vec<u8>,
    /// How many bytes there are from the refused token on.
    pub cut: usize,
    /// Closes that answer no Open.
    pub strays: usize,
    /// Opens that no Close answers.
    pub closes: usize,
}

impl Rescued {
    /// What is told of it, in the order of the words.
    pub fn told(&self) -> [u64; 3] {
        [self.cut, self.strays, self.closes].map(|number| number as u64)
    }
}

/// The tokens' own bytes up to the first refused one, but for strays; then a Close for each Open that is left.
pub fn rescued(bytes: &[u8]) -> Rescued {
    let (tokens, last) = original::tokens(bytes);
    let end = if last.code == code::ANSWERED { bytes.len() } else { last.words[1] as usize };
    let ends = tokens.iter().skip(1).map(|(next, _)| *next).chain([end]);
    let mut rescued = Rescued { cut: bytes.len() - end, ..Rescued::default() };
    let mut opens = Vec::new();
    for ((at, token), end) in tokens.iter().zip(ends) {
        let answers = *token != Token::Close || opens.pop().is_some();
        if *token == Token::Open {
            opens.push(*at);
        }
        if answers {
            rescued.save.extend(&bytes[*at..end]);
        } else {
            rescued.strays += 1;
        }
    }
    rescued.save.extend(original::spelling(&Token::Close).repeat(opens.len()));
    rescued.closes = opens.len();
    rescued
}

#[cfg(test)]
mod tests {
    use super::{Rescued, rescued};
    use protocol::unhex;
    use saves::{Flavour, Plan, Rng, save_of_a_build};

    fn bytes(hex: &str) -> Vec<u8> {
        unhex(&hex.replace(' ', "")).unwrap_or_else(|| panic!("{hex} is no hex"))
    }

    /// By hand: what is there, what is left of it, and the bytes cut, the strays and the Closes.
    const SAVES: [(&str, &str, [usize; 3]); 14] = [
        ("-", "-", [0, 0, 0]),
        ("03", "-", [1, 0, 0]),
        ("0300", "0300 0400", [0, 0, 1]),
        ("0400", "-", [0, 1, 0]),
        ("0400 0400 0400", "-", [0, 3, 0]),
        ("0300 0400", "0300 0400", [0, 0, 0]),
        ("0400 0300", "0300 0400", [0, 1, 1]),
        ("0300 0400 0400 0300 0300 0400", "0300 0400 0300 0300 0400 0400", [0, 1, 1]),
        ("0128 0f00 0200 61", "0128", [5, 0, 0]),
        ("0128 0100 0300 0f00 0200 0400 0f00 0900", "0128 0100 0300 0f00 0200 0400 0400", [4, 0, 1]),
        ("0400 0128 0100 0300 0e0002 0300 0f00 0900 61", "0128 0100 0300 0e0002 0300 0400 0400", [5, 1, 2]),
        ("0300 3f0d 00000001 4a0d 000000 420d", "0300 3f0d 00000001 4a0d 000000 420d 0400", [0, 0, 1]),
        (
            "0300 4302 0300 140001000000 140002000000 140003000000 0400 04",
            "0300 4302 0300 140001000000 140002000000 140003000000 0400 0400",
            [1, 0, 1],
        ),
        ("0300 4302 0300 140001000000 140002000000 140003000000 0300 0400 0400", "0300 0400", [28, 0, 1]),
    ];

    #[test]
    fn rescued_by_hand() {
        for (save, left, [cut, strays, closes]) in SAVES {
            assert_eq!(rescued(&bytes(save)), Rescued { save: bytes(left), cut, strays, closes }, "{save}");
        }
    }

    /// What `samples/make` writes: a save that is clipped at both ends, and what is left of it.
    #[test]
    fn the_clipped_sample() {
        let clipped = include_bytes!("../../../samples/fjord-clipped.save");
        let left = include_bytes!("../../../samples/fjord-rescued.save");
        assert_eq!(rescued(clipped), Rescued { save: left.to_vec(), cut: 4, strays: 2, closes: 2 });
    }

    /// A save that reads to its end and is balanced stays as it is; so does what was rescued, which is at most twice as long
    /// as the save; and what is kept, left out and cut is all of a save.
    #[test]
    fn nothing_is_left_to_rescue() {
        let mut rng = Rng::new(5);
        for round in 0..400 {
            let flavour = Flavour::ALL[round % Flavour::ALL.len()];
            let save = save_of_a_build(Plan { flavour, size: 200, longest_text: 20 }, &mut rng);
            let untouched = |save: &[u8]| Rescued { save: save.to_vec(), ..Rescued::default() };
            assert_eq!(rescued(&save), untouched(&save));
            let spoilt = [&[4, 0][..], &save[..rng.below(save.len())]].concat();
            let once = rescued(&spoilt);
            assert_eq!(rescued(&once.save), untouched(&once.save), "{spoilt:x?}");
            assert!(once.save.len() <= 2 * spoilt.len(), "{spoilt:x?}");
            assert_eq!(once.save.len() + 2 * once.strays + once.cut, spoilt.len() + 2 * once.closes, "{spoilt:x?}");
        }
    }
}
