//! Tables of contents: of saves whole, cut and damaged, searched at every position, and as files.

mod files;
mod lists;

pub use files::file_of;
pub use lists::changed;

use crate::run::Run;
use crate::subjects::{Fill, Holding, Limit, LongSave, Origin, Search, Written};
use files::{damaged_files, of_any_length};
use lists::{few_numbers, of_each_size};
use protocol::Span;
use saves::{Flavour, Plan, Rng, bad_colour, flip, random_bytes, random_ids, save_of_a_build};

pub fn contents(run: &mut Run, rng: &mut Rng, cases: usize) {
    few_numbers(run);
    of_each_size(run, rng);
    of_any_length(run);
    of_many_entries(run);
    for flavour in Flavour::ALL {
        large(run, rng, flavour);
    }
    for case in 0..cases {
        if case % 64 == 0 {
            run.progress("contents", case, cases);
        }
        one(run, rng, case);
    }
    limits(run);
}

fn one(run: &mut Run, rng: &mut Rng, case: usize) {
    let flavour = Flavour::ALL[case / 8 % Flavour::ALL.len()];
    match case % 8 {
        0 => everything(run, &small(rng, flavour)),
        1 => every_truncation(run, &small(rng, flavour)),
        2 | 3 => damaged(run, rng, flavour),
        4 => every_truncation(run, &[small(rng, flavour), bad_colour(rng), small(rng, flavour)].concat()),
        5 => everything(run, &random_bytes(rng, 48)),
        6 => everything(run, &random_ids(rng, 64)),
        _ => middling(run, rng, flavour),
    }
}

/// Some containers and keys at depth 0.
fn small(rng: &mut Rng, flavour: Flavour) -> Vec<u8> {
    let size = rng.below(64);
    save_of_a_build(Plan { flavour, size, longest_text: 8 }, rng)
}

/// The save's list, searched at every position, as a file and back; and the same of a list or a file that was changed.
fn everything(run: &mut Run, bytes: &[u8]) {
    let list = at_every_capacity(run, Origin::Save, bytes);
    every_position(run, bytes);
    as_a_file(run, list.as_flattened());
    damaged_files(run, &list);
    for numbers in changed(&list) {
        any_numbers(run, &numbers);
    }
}

fn every_truncation(run: &mut Run, bytes: &[u8]) {
    for len in 0..bytes.len() {
        let bytes = &bytes[..len];
        at_every_capacity(run, Origin::Save, bytes);
        for position in [0, len / 2, len.saturating_sub(1), len] {
            run.check(&Holding::new(bytes, position as u64));
        }
    }
}

fn damaged(run: &mut Run, rng: &mut Rng, flavour: Flavour) {
    let bytes = small(rng, flavour);
    for _ in 0..4 {
        let mut bytes = bytes.clone();
        flip(rng, &mut bytes);
        at_every_capacity(run, Origin::Save, &bytes);
        every_position(run, &bytes);
    }
}

/// Some thousand bytes, whole, damaged, and cut somewhere.
fn middling(run: &mut Run, rng: &mut Rng, flavour: Flavour) {
    let size = rng.below(2000);
    let mut bytes = save_of_a_build(Plan { flavour, size, longest_text: 400 }, rng);
    let list = at_every_capacity(run, Origin::Save, &bytes);
    as_a_file(run, list.as_flattened());
    for position in about(&list).chain((0..16).map(|_| rng.below(bytes.len() + 2) as u64)) {
        run.check(&Holding::new(&bytes, position));
    }
    flip(rng, &mut bytes);
    bytes.truncate(bytes.len() - rng.below(bytes.len().min(8) + 1));
    at_every_capacity(run, Origin::Save, &bytes);
}

/// Saves of just so many entries, about powers of two, into lists of about so many; then with a byte left over.
fn of_many_entries(run: &mut Run) {
    let counts = [63, 64, 65, 1023, 1024, 1025, 32_767, 32_768, 32_769];
    for count in counts {
        let bytes = [&[1, 0x28, 1, 0].repeat(count)[..], &[3]].concat();
        for bytes in [&bytes[..4 * count], &bytes] {
            at_every_capacity(run, Origin::Save, bytes);
            let fill = Fill::new(Origin::Save, bytes, 0);
            for capacity in counts {
                run.check(&fill.with_numbers(2 * capacity));
            }
        }
    }
}

/// Some hundred thousand bytes; the list is searched about each of its entries.
fn large(run: &mut Run, rng: &mut Rng, flavour: Flavour) {
    let bytes = save_of_a_build(Plan { flavour, size: 100_000, longest_text: 70_000 }, rng);
    let list = at_every_capacity(run, Origin::Save, &bytes);
    as_a_file(run, list.as_flattened());
    for position in about(&list).chain([0, u64::MAX]) {
        run.check(&Search::new(list.as_flattened(), position));
    }
    for _ in 0..64 {
        run.check(&Holding::new(&bytes, rng.below(bytes.len() + 2) as u64));
    }
}

/// The ends of the entries, and the positions beside them.
fn about(list: &[Span]) -> impl Iterator<Item = u64> {
    list.iter().flatten().flat_map(|end| [end.saturating_sub(1), *end, end + 1]).map(u64::from)
}

/// Also past the end, and past all that 32 bits hold.
pub fn every_position(run: &mut Run, bytes: &[u8]) {
    for position in far(bytes.len() as u64 + 2) {
        run.check(&Holding::new(bytes, position));
    }
}

/// Each number up to this one, and with 2^32 more; and the ends of 32 and of 64 bits.
fn far(last: u64) -> impl Iterator<Item = u64> {
    (0..=last).flat_map(|position| [position, (1 << 32) + position]).chain([(1 << 32) - 1, u64::MAX])
}

/// With just enough numbers in the list, one fewer, and three more.
pub fn filled(run: &mut Run, bytes: &[u8]) {
    let fill = Fill::new(Origin::Save, bytes, 0);
    let enough = 2 * fill.entries().len();
    for numbers in [enough.checked_sub(1), Some(enough), Some(enough + 3)].into_iter().flatten() {
        run.check(&fill.with_numbers(numbers));
    }
}

/// With none, one too few, just enough, one and three more, and a number more than each. Answers the entries.
fn at_every_capacity(run: &mut Run, origin: Origin, bytes: &[u8]) -> Vec<Span> {
    let fill = Fill::new(origin, bytes, 0);
    let enough = fill.entries().len();
    let capacities = [enough.saturating_sub(1), enough, enough + 1, enough + 3];
    let below = if enough > 1 { Some(0) } else { None };
    for capacity in capacities.into_iter().skip(usize::from(enough == 0)).chain(below) {
        run.check(&fill.with_numbers(2 * capacity));
        run.check(&fill.with_numbers(2 * capacity + 1));
    }
    fill.entries().to_vec()
}

/// Written at each room that makes a difference, and read back.
fn as_a_file(run: &mut Run, list: &[u32]) {
    let need = 5 + 4 * list.len();
    for room in [0, need - 1, need, need + 3] {
        run.check(&Written::new(list, room));
    }
    at_every_capacity(run, Origin::File, &file_of(list));
}

/// In order or not: searched, written with and without room, and read, also without room for them.
fn any_numbers(run: &mut Run, list: &[u32]) {
    for position in [0, list.get(1).copied().unwrap_or(0).into(), u64::MAX] {
        run.check(&Search::new(list, position));
    }
    as_a_file(run, list);
}

/// The longest save, of texts that fill their length so that few pages of it are looked at, with two keys; and one byte
/// more.
fn limits(run: &mut Run) {
    const TEXT: [u8; 4] = [0x0f, 0, 0xfc, 0xff];
    const KEY: [u8; 8] = [1, 0x28, 1, 0, 0x0f, 0, 0xf8, 0xff];
    const STEP: usize = 1 << 16;
    let (longest, last) = (Limit::LONGEST, Limit::LONGEST - STEP);
    let mut bytes = vec![0; longest + 1];
    for at in (0..longest).step_by(STEP) {
        bytes[at..at + 4].copy_from_slice(&TEXT);
    }
    for at in [0, last] {
        bytes[at..at + 8].copy_from_slice(&KEY);
    }
    let list = [[0, last as u32], [last as u32, longest as u32]];
    run.check(&LongSave { bytes: &bytes[..longest], list: &list });
    run.check(&LongSave { bytes: &bytes, list: &list });
    as_a_file(run, list.as_flattened());
    for position in about(&list) {
        run.check(&Search::new(list.as_flattened(), position));
    }
}

/// A list of so many entries, and of one fewer, as a file for which there is no room; and with a last entry that is out of
/// order.
pub fn many_entries(run: &mut Run, count: usize) {
    let last = u32::try_from(count).expect("entries of one byte each, to the ends of 32 bits");
    let mut list = Vec::with_capacity(2 * count);
    list.extend((0..last).flat_map(|start| [start, start + 1]));
    for fewer in [1, 0] {
        run.check(&Written::new(&list[2 * fewer.min(count)..], 0));
    }
    if let Some(end) = list.last_mut() {
        *end = 0;
        run.check(&Written::new(&list, 0));
    }
}
