//! The first key of every id, from every cursor, in saves whole, cut and damaged.

use crate::offsets::{at_each, at_some};
use crate::run::Run;
use crate::subjects::Find;
use saves::{Flavour, Plan, RESERVED, Rng, bad_colour, flip, random_bytes, random_ids, save_of_a_build};

pub fn finding(run: &mut Run, rng: &mut Rng, cases: usize) {
    each_id(run);
    for case in 0..cases {
        if case % 64 == 0 {
            run.progress("keys", case, cases);
        }
        one(run, rng, case);
    }
}

/// Each id before Equal, inside a container and behind a stray Close, and then as no key; and before Open: after Equal,
/// inside a container and behind it.
fn each_id(run: &mut Run) {
    for id in 0..=u16::MAX {
        let [a, b] = id.to_le_bytes();
        one_id(run, id, &[3, 0, a, b, 1, 0, 4, 0, 4, 0, a, b, 1, 0, a, b, a, b]);
        one_id(run, id, &[1, 0, a, b, 3, 0, a, b, 3, 0, 4, 0, 4, 0, a, b, 3, 0]);
    }
}

fn one_id(run: &mut Run, id: u16, bytes: &[u8]) {
    let near = RESERVED.iter().any(|reserved| reserved.abs_diff(id) <= 2);
    let cursors = if near { 0..=bytes.len() + 1 } else { 0..=2 };
    for at in cursors {
        for sought in [id, id ^ 1] {
            at_some(run, &Find::new(bytes, at, sought));
        }
    }
}

fn one(run: &mut Run, rng: &mut Rng, case: usize) {
    let flavour = Flavour::ALL[case / 8 % Flavour::ALL.len()];
    match case % 8 {
        0 => every_cursor(run, &small(rng, flavour)),
        1 => every_truncation(run, &small(rng, flavour)),
        2 | 3 => damaged(run, rng, flavour),
        4 => every_truncation(run, &[small(rng, flavour), bad_colour(rng), small(rng, flavour)].concat()),
        5 => every_cursor(run, &random_bytes(rng, 48)),
        6 => every_cursor(run, &random_ids(rng, 64)),
        _ => middling(run, rng, flavour),
    }
}

/// Some containers and keys at depth 0.
fn small(rng: &mut Rng, flavour: Flavour) -> Vec<u8> {
    let size = rng.below(48);
    save_of_a_build(Plan { flavour, size, longest_text: 8 }, rng)
}

/// Also past the end.
pub fn every_cursor(run: &mut Run, bytes: &[u8]) {
    for at in (0..=bytes.len() + 2).chain([usize::MAX]) {
        every_key(run, bytes, at);
    }
}

fn every_truncation(run: &mut Run, bytes: &[u8]) {
    for len in 0..bytes.len() {
        every_key(run, &bytes[..len], 0);
    }
}

fn damaged(run: &mut Run, rng: &mut Rng, flavour: Flavour) {
    let bytes = small(rng, flavour);
    for _ in 0..4 {
        let mut bytes = bytes.clone();
        flip(rng, &mut bytes);
        every_key(run, &bytes, 0);
        every_key(run, &bytes, rng.below(bytes.len() + 1));
    }
}

/// Some thousand bytes, whole, damaged, and cut somewhere.
fn middling(run: &mut Run, rng: &mut Rng, flavour: Flavour) {
    let size = rng.below(2000);
    let mut bytes = save_of_a_build(Plan { flavour, size, longest_text: 400 }, rng);
    some_keys(run, rng, &bytes);
    flip(rng, &mut bytes);
    bytes.truncate(bytes.len() - rng.below(bytes.len().min(8) + 1));
    some_keys(run, rng, &bytes);
}

fn some_keys(run: &mut Run, rng: &mut Rng, bytes: &[u8]) {
    let ids = ids(bytes, 0);
    for _ in 0..ids.len().min(8) {
        at_some(run, &Find::new(bytes, 0, ids[rng.below(ids.len())]));
        at_some(run, &Find::new(bytes, rng.below(bytes.len() + 1), ids[rng.below(ids.len())]));
    }
}

/// Every id that a token from there on begins with, the reserved ones too, and some that none does.
fn every_key(run: &mut Run, bytes: &[u8], at: usize) {
    for id in ids(bytes, at) {
        at_each(run, &Find::new(bytes, at, id));
    }
    for id in [0, 0x2801, RESERVED[at.wrapping_add(bytes.len()) % RESERVED.len()]] {
        at_each(run, &Find::new(bytes, at, id));
    }
}

/// Each once.
fn ids(bytes: &[u8], at: usize) -> Vec<u16> {
    let rest = bytes.get(at..).unwrap_or_default();
    let (tokens, _) = original::tokens(rest);
    let mut ids: Vec<u16> =
        tokens.iter().map(|(place, _)| u16::from_le_bytes([rest[*place], rest[place + 1]])).collect();
    ids.sort_unstable();
    ids.dedup();
    ids
}
