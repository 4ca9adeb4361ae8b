//! The first key of an id: in saves whole, cut and damaged, from cursors inside and past them.

use super::sample::Sample;
use crate::subjects::Find;
use saves::{Flavour, Plan, RESERVED, Rng, bad_colour, bare, flip, random_ids, save, token};

/// Two keys, with a container between them that holds the second id as one; then damage.
pub const KEYS: [u8; 24] = [1, 0x28, 1, 0, 3, 0, 2, 0x28, 1, 0, 4, 0, 4, 0, 2, 0x28, 2, 0x28, 1, 0, 0x0f, 0, 9, 0];

/// Two keys before their brackets. Before the second, its id is none: before another, inside a container, after Equal,
/// and before a colour. Then damage.
pub const BRACKETS: [u8; 58] = [
    2, 0x28, 1, 0x28, 3, 0, 2, 0x28, 3, 0, 4, 0, 4, 0, 1, 0, 2, 0x28, 3, 0, 4, 0, 4, 0, 2, 0x28, 0x43, 2, 3, 0, 0x14,
    0, 1, 0, 0, 0, 0x14, 0, 2, 0, 0, 0, 0x14, 0, 3, 0, 0, 0, 4, 0, 2, 0x28, 3, 0, 0x0f, 0, 9, 0,
];

pub fn all(sample: &mut Sample, seed: u64) {
    let mut rng = Rng::new(seed);
    every_place(sample, &KEYS);
    reserved(sample);
    for flavour in Flavour::ALL {
        keys(sample, &save(Plan { flavour, size: 60, longest_text: 8 }, &mut rng), &mut rng);
    }
    for _ in 0..4 {
        keys(sample, &bad_colour(&mut rng), &mut rng);
        keys(sample, &random_ids(&mut rng, 48), &mut rng);
    }
    every_place(sample, &BRACKETS);
    reserved_before_open(sample, &mut rng);
    for flavour in Flavour::ALL {
        let bytes = save(Plan { flavour, size: 40, longest_text: 8 }, &mut rng);
        keys(sample, &bare(&bytes, &mut rng), &mut rng);
    }
}

/// Every cursor, and every cut.
fn every_place(sample: &mut Sample, bytes: &[u8]) {
    for at in (0..=bytes.len() + 1).chain([usize::MAX]) {
        for id in [0x2801, 0x2802, 0x2803] {
            sample.add(&Find::new(bytes, at, id));
        }
    }
    for len in 0..bytes.len() {
        sample.add(&Find::new(&bytes[..len], 0, 0x2802));
    }
}

/// Each before Equal, with bytes enough for any payload between them: never a key, and the plain id after it is one.
fn reserved(sample: &mut Sample) {
    for id in RESERVED {
        let bytes = [&id.to_le_bytes()[..], &[1, 0, 1, 0, 1, 0, 1, 0, 1, 0x28, 1, 0]].concat();
        sample.add(&Find::new(&bytes, 0, id));
        sample.add(&Find::new(&bytes, 0, 0x2801));
    }
}

/// Each as a whole token before an Open, and the plain id before another: the reserved one is never found.
fn reserved_before_open(sample: &mut Sample, rng: &mut Rng) {
    for id in RESERVED {
        let bytes = [&token(rng, id, 8)[..], &[3, 0, 4, 0, 1, 0x28, 3, 0]].concat();
        sample.add(&Find::new(&bytes, 0, id));
        sample.add(&Find::new(&bytes, 0, 0x2801));
    }
}

/// Some of the ids that stand there, whole and damaged.
fn keys(sample: &mut Sample, bytes: &[u8], rng: &mut Rng) {
    let mut damaged = bytes.to_vec();
    flip(rng, &mut damaged);
    for (place, _) in original::tokens(bytes).0.into_iter().take(12) {
        let id = u16::from_le_bytes([bytes[place], bytes[place + 1]]);
        sample.add(&Find::new(bytes, 0, id));
        sample.add(&Find::new(bytes, rng.below(place + 1), id));
        sample.add(&Find::new(&damaged, 0, id));
    }
}
