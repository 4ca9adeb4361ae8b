//! Saves gone wrong.

use crate::flavour::put_colour;
use crate::ids::{CLOSE, OPEN, RGB, U32};
use crate::{RESERVED, Rng};

/// One to four bits turned over.
pub fn flip(rng: &mut Rng, bytes: &mut [u8]) {
    for _ in 0..=rng.below(4) {
        let at = rng.below(bytes.len());
        if let Some(byte) = bytes.get_mut(at) {
            *byte ^= 1 << rng.below(8);
        }
    }
}

/// A colour's id, then a colour with one of its ids changed, some bytes after it, and sometimes an end too soon.
pub fn bad_colour(rng: &mut Rng) -> Vec<u8> {
    let mut out = RGB.to_le_bytes().to_vec();
    put_colour(rng, &mut out);
    let mut places = vec![2];
    places.extend((4..out.len()).step_by(6));
    let at = rng.pick(&places);
    let any = rng.number() as u16;
    let id = rng.pick(&[OPEN, CLOSE, U32, 0x0014 ^ 0x0100, 0x000c, RGB, any]);
    out[at..at + 2].copy_from_slice(&id.to_le_bytes());
    let after = rng.below(12);
    rng.fill(&mut out, after);
    if rng.one_in(3) {
        out.truncate(2 + rng.below(out.len() - 1));
    }
    out
}

/// A colour's id and a colour, with and without alpha: cut at every place, and whole with each of its ids changed.
pub fn cut_and_changed_colours() -> Vec<Vec<u8>> {
    let mut all = Vec::new();
    for channels in [3, 4] {
        let channel = |at: u8| [&U32.to_le_bytes()[..], &[at, at + 1, at + 2, 0x80 + at]].concat();
        let channels: Vec<u8> = (0..channels).flat_map(|at| channel(16 * at)).collect();
        let ends = [&RGB.to_le_bytes()[..], &OPEN.to_le_bytes()].concat();
        let whole = [ends, channels, CLOSE.to_le_bytes().to_vec()].concat();
        all.extend((0..=whole.len()).map(|len| whole[..len].to_vec()));
        for at in [2].into_iter().chain((4..whole.len()).step_by(6)) {
            for id in [0, OPEN, CLOSE, U32, U32 + 0x0100, 0x000c, RGB] {
                let mut changed = [&whole[..], &[4, 0, 4, 0, 4, 0]].concat();
                changed[at..at + 2].copy_from_slice(&id.to_le_bytes());
                all.push(changed);
            }
        }
    }
    all
}

pub fn random_bytes(rng: &mut Rng, longest: usize) -> Vec<u8> {
    let mut out = Vec::new();
    let length = rng.below(longest + 1);
    rng.fill(&mut out, length);
    out
}

/// Reserved ids with a few bytes after each, seldom as many as they want.
pub fn random_ids(rng: &mut Rng, longest: usize) -> Vec<u8> {
    let mut out = Vec::new();
    let length = rng.below(longest + 1);
    while out.len() < length {
        out.extend(rng.pick(&RESERVED).to_le_bytes());
        let few = rng.below(6);
        let small = rng.one_in(2);
        out.extend((0..few).map(|_| if small { rng.below(4) as u8 } else { rng.byte() }));
    }
    out.truncate(length);
    out
}
