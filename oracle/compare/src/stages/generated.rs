//! Saves from the seed, whole and damaged.

use super::sweep::{along, every_call, every_place, every_truncation};
use crate::offsets::at_some;
use crate::run::Run;
use saves::{Flavour, Plan, Rng, bad_colour, flip, random_bytes, random_ids, save};

pub fn generated(run: &mut Run, rng: &mut Rng, cases: usize) {
    for case in 0..cases {
        if case % 64 == 0 {
            run.progress("generated saves", case, cases);
        }
        one(run, rng, case);
    }
}

fn one(run: &mut Run, rng: &mut Rng, case: usize) {
    let flavour = Flavour::ALL[case / 8 % Flavour::ALL.len()];
    match case % 8 {
        0 => every_place(run, &small(rng, flavour), at_some),
        1 => every_truncation(run, &small(rng, flavour)),
        2 => damaged(run, rng, flavour),
        3 => every_place(run, &bad_colour(rng), at_some),
        4 => every_truncation(run, &bad_colour(rng)),
        5 => every_place(run, &random_bytes(rng, 48), at_some),
        6 => every_place(run, &random_ids(rng, 64), at_some),
        _ => middling(run, rng, flavour),
    }
}

fn small(rng: &mut Rng, flavour: Flavour) -> Vec<u8> {
    let size = rng.below(64);
    save(Plan { flavour, size, longest_text: 12 }, rng)
}

fn damaged(run: &mut Run, rng: &mut Rng, flavour: Flavour) {
    let mut bytes = small(rng, flavour);
    flip(rng, &mut bytes);
    every_place(run, &bytes, at_some);
    along(run, &bytes, at_some);
}

/// Some thousand bytes, whole, damaged, and cut somewhere.
fn middling(run: &mut Run, rng: &mut Rng, flavour: Flavour) {
    let size = rng.below(2000);
    let mut bytes = save(Plan { flavour, size, longest_text: 400 }, rng);
    along(run, &bytes, at_some);
    flip(rng, &mut bytes);
    bytes.truncate(bytes.len() - rng.below(bytes.len().min(8) + 1));
    along(run, &bytes, at_some);
    for _ in 0..8 {
        every_call(run, &bytes, rng.below(bytes.len() + 2), at_some);
    }
}
