//! The shortest spelling of a token, searched for among what the original reads. What the port takes for the shortest is
//! not asked.

use protocol::{Colour, Token};
use saves::ids::{CLOSE, OPEN, U32};
use std::collections::HashMap;
use std::sync::LazyLock;

/// The shortest bytes that the original reads as the token, to their end. Of several the ones with the lowest id, and
/// with the lowest payload then: only true has more than one.
pub fn shortest(token: &Token) -> Option<Vec<u8>> {
    FEW.get(token).cloned().or_else(|| longer(token))
}

/// The longest payload of which every one is tried, whatever the token.
const TRIED: usize = 2;

/// The best spelling of each token that has one with so short a payload.
static FEW: LazyLock<HashMap<Token, Vec<u8>>> = LazyLock::new(|| {
    let mut best = HashMap::new();
    for width in 0..=TRIED {
        let ids = if width == 0 { &ALL[..] } else { &UNFINISHED[..] };
        for id in ids {
            for payload in 0..1u32 << (8 * width) {
                let bytes = [&id.to_le_bytes()[..], &payload.to_le_bytes()[..width]].concat();
                if let Some(token) = original::one_token(&bytes) {
                    best.entry(token).or_insert(bytes);
                }
            }
        }
    }
    best
});

static ALL: LazyLock<Vec<u16>> = LazyLock::new(|| (0..=u16::MAX).collect());

/// The ids that are no token alone. The others are one whatever follows them, and it is left over.
static UNFINISHED: LazyLock<Vec<u16>> = LazyLock::new(|| {
    let alone = |id: &u16| original::one_token(&id.to_le_bytes()).is_some();
    ALL.iter().copied().filter(|id| !alone(id)).collect()
});

/// Of each length in turn every id, with all payloads that could stand for the token.
fn longer(token: &Token) -> Option<Vec<u8>> {
    let payloads = payloads(token);
    payloads.chunk_by(|one, next| one.len() == next.len()).find_map(|alike| first(token, alike))
}

fn first(token: &Token, payloads: &[Vec<u8>]) -> Option<Vec<u8>> {
    let mut lists: Vec<Vec<u8>> = payloads.iter().map(|payload| [&[0, 0], &payload[..]].concat()).collect();
    UNFINISHED.iter().find_map(|id| {
        lists.iter_mut().for_each(|list| list[..2].copy_from_slice(&id.to_le_bytes()));
        lists.iter().find(|list| original::reads_back(token, list)).cloned()
    })
}

/// The shortest first.
fn payloads(token: &Token) -> Vec<Vec<u8>> {
    match token {
        Token::Open | Token::Close | Token::Equal | Token::Id(_) => Vec::new(),
        Token::Quoted(text) | Token::Unquoted(text) => vec![[&(text.len() as u16).to_le_bytes(), &text[..]].concat()],
        Token::Rgb(colour) => vec![parts(colour)],
        _ => numbers(token.words().1[0]),
    }
}

/// The low bytes of a number and of the negated number, of every width.
fn numbers(number: u64) -> Vec<Vec<u8>> {
    let both = [number, number.wrapping_neg()].map(u64::to_le_bytes);
    (TRIED + 1..=8).flat_map(|width| both.map(|bytes| bytes[..width].to_vec())).collect()
}

fn parts(colour: &Colour) -> Vec<u8> {
    let channels = [colour.r, colour.g, colour.b].into_iter().chain(colour.a);
    let channels = channels.flat_map(|channel| [&U32.to_le_bytes()[..], &channel.to_le_bytes()].concat());
    OPEN.to_le_bytes().into_iter().chain(channels).chain(CLOSE.to_le_bytes()).collect()
}
