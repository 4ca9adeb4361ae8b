//! Saves as builds write them that leave the Equal before a container out.

use crate::ids::{EQUAL, OPEN, U32};
use crate::{Payload, Plan, Rng, payload, save};

/// What is put after some tokens: Equal, and containers without and with another one inside.
const PUT_IN: [&[u8]; 3] = [&[1, 0], &[3, 0, 4, 0], &[3, 0, 3, 0, 4, 0, 4, 0]];

/// The save with half of the Equals before an Open left out, fewer of the others, and something put after some tokens.
/// Every token must read, and does so then; containers that balance still do.
pub fn bare(bytes: &[u8], rng: &mut Rng) -> Vec<u8> {
    let mut out = Vec::new();
    let mut rest = bytes;
    while !rest.is_empty() {
        let (token, after) = rest.split_at(token_len(rest));
        let one_in = if after.starts_with(&OPEN.to_le_bytes()) { 2 } else { 4 };
        if token != EQUAL.to_le_bytes() || !rng.one_in(one_in) {
            out.extend(token);
        }
        if rng.one_in(4) {
            out.extend(rng.pick(&PUT_IN));
        }
        rest = after;
    }
    out
}

/// A save as one build writes it or the other.
pub fn save_of_a_build(plan: Plan, rng: &mut Rng) -> Vec<u8> {
    let bytes = save(plan, rng);
    if rng.one_in(2) { bare(&bytes, rng) } else { bytes }
}

/// Of the token at the start.
fn token_len(bytes: &[u8]) -> usize {
    let number = |at: usize| u16::from_le_bytes([bytes[at], bytes[at + 1]]);
    2 + match payload(number(0)) {
        Payload::Bytes(count) => count,
        Payload::Text => 2 + usize::from(number(2)),
        Payload::Colour if number(22) == U32 => 28,
        Payload::Colour => 22,
    }
}
