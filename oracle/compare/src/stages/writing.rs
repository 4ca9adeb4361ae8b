//! Both writers: every kind at every room, and what they refuse.

use crate::run::Run;
use crate::spelling::need;
use crate::subjects::Write;
use protocol::{Colour, Spelling, Token};
use saves::{Flavour, Plan, Rng, save};

/// Kinds that have no name, of which some have one in their low byte.
const NO_KINDS: [u32; 7] = [15, 16, 127, 255, 256, 0x0100_0003, u32::MAX];
/// What words hold that are not looked at.
const ANYTHING: u64 = 0xdead_beef_dead_beef;

pub fn writing(run: &mut Run, rng: &mut Rng) {
    for token in values(rng) {
        every_room(run, &token);
    }
    all_ids(run);
    long_texts(run);
    places(run);
    no_tokens(run);
    more_words(run, rng);
    for flavour in Flavour::ALL {
        parts_of_a_save(run, rng, flavour);
    }
}

/// Tokens without a value, and both bools.
pub const FEW_VALUES: [Token; 5] = [Token::Open, Token::Close, Token::Equal, Token::Bool(false), Token::Bool(true)];

/// Each kind of one number, with as many of its low bytes as the kind takes.
pub fn of_number(number: u64) -> [Token; 8] {
    let low = number as u32;
    [
        Token::U32(low),
        Token::I32(low.cast_signed()),
        Token::F32(low.to_le_bytes()),
        Token::U64(number),
        Token::I64(number.cast_signed()),
        Token::F64(number.to_le_bytes()),
        Token::Lookup(low),
        Token::Id(number as u16),
    ]
}

/// Each kind with the ends of its values, the ends of each byte of them, also negated, and some from the seed.
fn values(rng: &mut Rng) -> Vec<Token> {
    let ends = (8..64).step_by(8).map(|bits| 1u64 << bits);
    let about = |end: u64| [end - 2, end - 1, end, end + 1, 0x80 * end];
    let mut numbers: Vec<u64> = ends.flat_map(about).chain([0, 1, 0x80]).collect();
    numbers.extend([i32::MIN as u64, i32::MAX as u64, u32::MAX.into(), i64::MAX as u64, 0x0102_0304_0506_0708]);
    numbers.extend((0..64).map(|_| rng.any_size()));
    let negated: Vec<u64> = numbers.iter().map(|number| number.wrapping_neg()).collect();
    numbers.extend(negated);
    let mut tokens = FEW_VALUES.to_vec();
    for number in numbers {
        tokens.extend(of_number(number));
        let (low, g, b) = (number as u32, rng.number() as u32, (number >> 32) as u32);
        tokens.extend([None, Some(0), Some(low)].map(|a| Token::Rgb(Colour { r: low, g, b, a })));
    }
    for length in [0, 1, 2, 3, 64, 127, 128, 254, 255, 256, 257, 300] {
        let mut text = Vec::new();
        rng.fill(&mut text, length);
        tokens.extend([Token::Quoted(text.clone()), Token::Unquoted(text)]);
    }
    tokens
}

/// By both writers.
fn write(run: &mut Run, bytes: &[u8], kind: u32, words: &[u64], room: usize) {
    for spelling in Spelling::ALL {
        run.check(&Write::new(spelling, bytes, kind, words, room));
    }
}

fn write_token(run: &mut Run, token: &Token, room: usize) {
    let (kind, words) = token.words();
    write(run, token.text(), kind, &words, room);
}

/// From no room to one byte more than is needed.
fn every_room(run: &mut Run, token: &Token) {
    for room in 0..=need(token) + 1 {
        write_token(run, token, room);
    }
}

fn all_ids(run: &mut Run) {
    for id in 0..=u16::MAX {
        every_room(run, &Token::Id(id));
    }
}

/// Texts at the limit of a length of two bytes, with rooms at the ends and where a truncated length would do.
fn long_texts(run: &mut Run) {
    for length in [32_767, 32_768, 65_534, 65_535, 65_536, 65_537, 65_792, 131_071, 131_072] {
        let text: Vec<u8> = (0..length).map(|at| (at % 251) as u8).collect();
        let truncated = length % 65_536;
        let rooms = (0..=8).chain(truncated..truncated + 8).chain(length..=length + 6);
        let tokens = [Token::Quoted(text.clone()), Token::Unquoted(text)];
        for room in rooms {
            for token in &tokens {
                write_token(run, token, room);
            }
        }
    }
}

/// Starts and lengths whose sum is at the end of the bytes or of all numbers; a text that is too long as well.
fn places(run: &mut Run) {
    let bytes = [7, 1, 2, 3, 4, 5, 6, 7, 8];
    let ends = [0, 1, 2, 8, 9, 10, 65_535, 65_536, u64::MAX - 9, u64::MAX - 8, u64::MAX - 1, u64::MAX];
    for kind in [7, 8] {
        for start in ends {
            for len in ends {
                for room in [0, 3, 4, 5, 12, 13, 14] {
                    write(run, &bytes, kind, &[start, len, 0, 0, 0], room);
                    write(run, &[], kind, &[start, len, 0, 0, 0], room);
                }
            }
        }
    }
    let long = vec![7; 65_537];
    for (start, len) in [(0, 65_537), (1, 65_536), (2, 65_536), (65_537, 65_536), (2, 65_535), (3, 65_535)] {
        for room in [0, 4, 65_540] {
            write(run, &long, 7, &[start, len, 0, 0, 0], room);
            write(run, &long, 8, &[start, len, 0, 0, 0], room);
        }
    }
}

/// No kind, too few words, and words that are no value of their kind.
fn no_tokens(run: &mut Run) {
    for room in [0, 40] {
        for kind in (0..15).chain(NO_KINDS) {
            for count in 0..=5 {
                write(run, &[1, 2], kind, &[1, 1, 1, 1, 1][..count], room);
            }
        }
        let highs = [1 << 8, 1 << 16, 1 << 31, 1 << 32, (1 << 32) + 1, 1 << 63, u64::MAX];
        let lows = [2, 0xff, 0xffff, 0xffff_ffff, 0x7fff_ffff, 0x8000_0000];
        let signed = [i32::MIN.into(), i32::MAX.into(), i64::from(i32::MIN) - 1, i64::from(i32::MAX) + 1, -1, i64::MIN];
        for word in highs.into_iter().chain(lows).chain(signed.map(i64::cast_unsigned)) {
            for kind in (0..15).filter(|kind| ![7, 8].contains(kind)) {
                write(run, &[], kind, &[word, 0, 0, 0, 0], room);
            }
            for at in 1..5 {
                let mut colour = [1, 2, 3, 1, 4];
                colour[at] = word;
                write(run, &[], 11, &colour, room);
            }
        }
    }
}

/// What stands in the words after the kind's own makes no difference.
fn more_words(run: &mut Run, rng: &mut Rng) {
    for token in values(rng) {
        let (kind, words) = token.words();
        let own = match token {
            Token::Open | Token::Close | Token::Equal => 0,
            Token::Quoted(_) | Token::Unquoted(_) => 2,
            Token::Rgb(_) => 5,
            _ => 1,
        };
        let mut more = words.to_vec();
        more[own..].fill(ANYTHING);
        more.resize(5 + rng.below(4), ANYTHING);
        write(run, token.text(), kind, &more, rng.below(40));
        write(run, token.text(), kind, &more, 400);
    }
}

/// The tokens of a save, with their texts where they stand in it.
fn parts_of_a_save(run: &mut Run, rng: &mut Rng, flavour: Flavour) {
    let bytes = save(Plan { flavour, size: 4000, longest_text: 300 }, rng);
    for (at, token) in original::tokens(&bytes).0 {
        let read = original::lex(&bytes, at, protocol::Call::ReadToken).expect("a place in the input");
        let need = need(&token);
        for room in [0, need - 1, need, need + 1, rng.below(2 * need)] {
            write(run, &bytes, read.words[1] as u32, &read.words[2..7], room);
        }
    }
}
