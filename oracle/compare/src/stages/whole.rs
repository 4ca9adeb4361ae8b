//! Whole saves in both spellings, their dump, what is rescued of them and their contents, and the fast step along them.

use super::contents::filled;
use crate::run::Run;
use crate::subjects::{Fast, Form, Kept, Limit, Whole};
use saves::ids::TEXTS;
use saves::{Flavour, Plan, Rng, bad_colour, flip, narrow, random_bytes, random_ids, save, save_of_a_build};

pub fn whole(run: &mut Run, rng: &mut Rng, cases: usize) {
    each_id(run);
    wide_lookups(run);
    for flavour in Flavour::ALL {
        large(run, rng, flavour);
    }
    for case in 0..cases {
        if case % 64 == 0 {
            run.progress("whole saves", case, cases);
        }
        one(run, rng, case);
    }
    limits(run);
}

/// Each id, with some bytes after it and again; the dump and the contents also of the id before Open: at the start, after
/// Equal, and inside a container.
fn each_id(run: &mut Run) {
    for id in 0..=u16::MAX {
        let [a, b] = id.to_le_bytes();
        one_save(run, &[a, b, 1, 0, 4, 0, a, b, 1, 0, 3, 0, a, b, 1, 0]);
        let before_open = [a, b, 3, 0, 4, 0, 1, 0, a, b, 3, 0, a, b, 3, 0];
        one_dump(run, &before_open);
        filled(run, &before_open);
    }
}

/// Lookups about the widest that can be written, after and before texts of the longest that there are, another lookup, and
/// tokens that cannot be read.
fn wide_lookups(run: &mut Run) {
    let long = [0xffu8; 65_535];
    let texts = TEXTS.map(|id| [&id.to_le_bytes()[..], &[0xff, 0xff], &long].concat());
    let mut others = vec![vec![], vec![1, 0x28], vec![0x5d, 0x0d, 0xff, 0xff, 0xff, 0xff], vec![0x3f, 0x0d, 0, 0, 0]];
    others.push([&[0x43, 2][..], &[0; 22]].concat());
    others.extend(texts);
    for id in [0x0d3fu16, 0x0d46, 0x0d5d] {
        for number in [(1u32 << 24) - 1, 1 << 24, (1 << 24) + 1, 0xff00_0000, u32::MAX] {
            let lookup = [&id.to_le_bytes()[..], &number.to_le_bytes()].concat();
            for other in &others {
                one_save(run, &[&lookup[..], other].concat());
                one_save(run, &[&other[..], &lookup].concat());
            }
        }
    }
}

/// Some hundred thousand bytes, with and without wide lookups.
fn large(run: &mut Run, rng: &mut Rng, flavour: Flavour) {
    let mut bytes = save(Plan { flavour, size: 100_000, longest_text: 70_000 }, rng);
    one_save(run, &bytes);
    narrow(&mut bytes);
    one_save(run, &bytes);
}

fn one(run: &mut Run, rng: &mut Rng, case: usize) {
    let flavour = Flavour::ALL[case / 8 % Flavour::ALL.len()];
    match case % 8 {
        0 => whole_and_cut(run, &small(rng, flavour)),
        1 => whole_and_cut(run, &narrowed(small(rng, flavour))),
        2 => damaged(run, rng, flavour),
        3 => whole_and_cut(run, &bad_colour(rng)),
        4 => after_a_save(run, rng, flavour),
        5 => one_save(run, &random_bytes(rng, 64)),
        6 => one_save(run, &random_ids(rng, 64)),
        _ => middling(run, rng, flavour),
    }
    let bytes = small(rng, flavour);
    along(run, rng, &bytes);
}

fn small(rng: &mut Rng, flavour: Flavour) -> Vec<u8> {
    let size = rng.below(96);
    save_of_a_build(Plan { flavour, size, longest_text: 12 }, rng)
}

fn narrowed(mut bytes: Vec<u8>) -> Vec<u8> {
    narrow(&mut bytes);
    bytes
}

fn whole_and_cut(run: &mut Run, bytes: &[u8]) {
    for len in 0..=bytes.len() {
        one_save(run, &bytes[..len]);
    }
}

fn damaged(run: &mut Run, rng: &mut Rng, flavour: Flavour) {
    let bytes = narrowed(small(rng, flavour));
    for _ in 0..8 {
        let mut bytes = bytes.clone();
        flip(rng, &mut bytes);
        one_save(run, &bytes);
    }
}

/// Ends too many, then a save and a spoilt colour.
fn after_a_save(run: &mut Run, rng: &mut Rng, flavour: Flavour) {
    let closes = [4, 0].repeat(rng.below(3));
    let bytes = [narrowed(small(rng, flavour)), closes.clone(), narrowed(small(rng, flavour))].concat();
    one_save(run, &bytes);
    one_save(run, &[closes, bytes, bad_colour(rng)].concat());
}

/// Some thousand bytes, whole, damaged, and cut somewhere.
fn middling(run: &mut Run, rng: &mut Rng, flavour: Flavour) {
    let size = rng.below(2000);
    let mut bytes = narrowed(save_of_a_build(Plan { flavour, size, longest_text: 400 }, rng));
    one_save(run, &bytes);
    flip(rng, &mut bytes);
    bytes.truncate(bytes.len() - rng.below(bytes.len().min(8) + 1));
    one_save(run, &bytes);
}

/// Without room, with a byte too few, with just enough, and with one more.
pub fn one_save(run: &mut Run, bytes: &[u8]) {
    for form in Form::ALL {
        let whole = Whole::new(form, bytes, 0);
        for room in rooms(whole.need()) {
            run.check(&whole.with_room(room));
        }
    }
    run.check(&Kept::new(bytes));
    filled(run, bytes);
}

/// With just enough room.
pub fn one_dump(run: &mut Run, bytes: &[u8]) {
    let dump = Whole::new(Form::Dump, bytes, 0);
    run.check(&dump.with_room(dump.need()));
}

pub fn rooms(need: usize) -> impl Iterator<Item = usize> {
    let below = [0, need.saturating_sub(1)];
    below.into_iter().take(need.min(2)).chain([need, need + 1])
}

/// The step at each token, with all that follows as the window, and with a window that ends soon after.
fn along(run: &mut Run, rng: &mut Rng, bytes: &[u8]) {
    let bytes = [bytes, &[1, 0].repeat(8)].concat();
    for (at, _) in original::tokens(&bytes).0 {
        let held = rng.number().to_le_bytes();
        run.check(&Fast::new(&held, &bytes[at..]));
        let end = bytes.len().min(at + 14 + rng.below(12));
        run.check(&Fast::new(&held, &bytes[at..end]));
    }
}

/// The longest save, of texts that fill their length so that few pages of it are looked at, and one byte more.
fn limits(run: &mut Run) {
    const TEXT: usize = 65_532;
    let mut bytes = vec![0; Limit::LONGEST + 1];
    for at in (0..Limit::LONGEST).step_by(4 + TEXT) {
        bytes[at..at + 4].copy_from_slice(&[0x0f, 0, 0xfc, 0xff]);
    }
    for form in Form::ALL {
        if form != Form::Dump {
            run.check(&Limit { form, bytes: &bytes[..Limit::LONGEST] });
        }
        run.check(&Limit { form, bytes: &bytes });
    }
}
