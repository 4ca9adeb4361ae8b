//! Tables of contents: filled from saves and from files, searched, and written. A list is recorded as its numbers, four
//! bytes each, the lowest first.

use super::entry::Entry;
use super::finds::{BRACKETS, KEYS};
use super::sample::Sample;
use crate::case::Case;
use crate::contents::file;
use crate::stages::{changed, file_of, specimen_requests};
use crate::subjects::{Fill, Origin, Search, Written};
use protocol::{Request, Span, code};
use saves::{Flavour, Plan, RESERVED, Rng, bad_colour, bare, flip, random_ids, save, token};

/// The most numbers of a list that the replay takes.
const MOST: usize = 16;

/// Entries that begin at the start and after it, long and short, and up to the largest number.
const LISTS: [&[Span]; 6] = [
    &[],
    &[[0, 1]],
    &[[5, 7]],
    &[[2, 16], [16, 24]],
    &[[0, 1], [1, 3], [3, 4], [4, 9], [9, 10]],
    &[[7, 0x0102_0304], [0x0102_0304, 0x8000_0000], [0x8000_0000, u32::MAX]],
];

pub fn all(sample: &mut Sample, seed: u64) {
    let mut rng = Rng::new(seed);
    specimens(sample);
    for list in LISTS {
        positions(sample, list);
        in_bytes(sample, list);
        for numbers in changed(list) {
            any_numbers(sample, &numbers);
        }
    }
    damaged_files(sample, LISTS[3]);
    for bytes in [&KEYS[..], &BRACKETS] {
        for len in 0..=bytes.len() {
            fill(sample, Origin::Save, &bytes[..len], MOST);
        }
    }
    each_reserved(sample, &mut rng);
    for flavour in Flavour::ALL {
        saves(sample, &mut rng, flavour);
    }
}

fn specimens(sample: &mut Sample) {
    for (_, request) in specimen_requests() {
        match request {
            Request::Toc { capacity, bytes } => fill(sample, Origin::Save, &bytes, 2 * capacity),
            Request::TocRead { capacity, file } => fill(sample, Origin::File, &file, 2 * capacity),
            Request::TocSearch { list, position } => search(sample, list.as_flattened(), position),
            Request::TocWrite { room, list } => write(sample, list.as_flattened(), room),
            _ => {}
        }
    }
}

/// At the ends of the entries and beside them, and where no entry can be.
fn positions(sample: &mut Sample, list: &[Span]) {
    for end in list.iter().flatten().copied().map(u64::from) {
        for position in [end.saturating_sub(1), end, end + 1, (1 << 32) + end] {
            search(sample, list.as_flattened(), position);
        }
    }
    for position in [0, 1 << 32, u64::MAX] {
        search(sample, list.as_flattened(), position);
    }
}

/// Without room, with a byte too few, with just enough, and with more; and read back.
fn in_bytes(sample: &mut Sample, list: &[Span]) {
    let file = file(list);
    for room in [0, file.len() - 1, file.len(), file.len() + 3] {
        write(sample, list.as_flattened(), room);
    }
    fills(sample, Origin::File, &file);
}

/// In order or not: with room for them, or for their file, and without.
fn any_numbers(sample: &mut Sample, numbers: &[u32]) {
    let file = file_of(numbers);
    search(sample, numbers, 1);
    for (room, most) in [(0, 0), (file.len(), MOST)] {
        write(sample, numbers, room);
        fill(sample, Origin::File, &file, most);
    }
}

/// With each byte changed, cut at every place, and lengthened.
fn damaged_files(sample: &mut Sample, list: &[Span]) {
    let whole = file(list);
    for at in 0..whole.len() {
        for change in [1, 0x80] {
            let mut file = whole.clone();
            file[at] ^= change;
            fill(sample, Origin::File, &file, MOST);
        }
        fill(sample, Origin::File, &whole[..at], MOST);
    }
    for more in [1, 4, 8] {
        fill(sample, Origin::File, &[&whole[..], &vec![0; more]].concat(), MOST);
    }
}

/// As a whole token before Equal, and before Open.
fn each_reserved(sample: &mut Sample, rng: &mut Rng) {
    for id in RESERVED {
        let token = token(rng, id, 8);
        fill(sample, Origin::Save, &[&[4, 0][..], &token, &[1, 0], &token, &[3, 0]].concat(), MOST);
    }
}

/// Whole, cut somewhere, damaged, and before a spoilt colour.
fn saves(sample: &mut Sample, rng: &mut Rng, flavour: Flavour) {
    let bytes = save(Plan { flavour, size: 40, longest_text: 8 }, rng);
    let mut bytes = bare(&bytes, rng);
    fills(sample, Origin::Save, &bytes);
    fills(sample, Origin::Save, &random_ids(rng, 40));
    fill(sample, Origin::Save, &bytes[..rng.below(bytes.len())], MOST);
    fill(sample, Origin::Save, &[&bytes[..], &bad_colour(rng)].concat(), MOST);
    flip(rng, &mut bytes);
    fill(sample, Origin::Save, &bytes, MOST);
}

/// With one number too few, just enough, and more, as far as the replay takes them.
fn fills(sample: &mut Sample, origin: Origin, bytes: &[u8]) {
    let enough = 2 * Fill::new(origin, bytes, 0).entries().len();
    for numbers in [enough.saturating_sub(1), enough, enough + 1, enough + 3, MOST] {
        fill(sample, origin, bytes, numbers.min(MOST));
    }
}

fn fill(sample: &mut Sample, origin: Origin, bytes: &[u8], numbers: usize) {
    assert!(numbers <= MOST, "{numbers} numbers");
    let seen = Fill::new(origin, bytes, numbers).expected();
    let answer = seen.seen.answer();
    let filled = if answer.code == code::ANSWERED { 2 * answer.words[0] as usize } else { 0 };
    let entry = Entry { call: origin.name(), at: numbers, offset: 0, arg: 0, answer, bytes };
    sample.add_output(&entry, &low_first(&seen.lent()[..filled]));
}

fn search(sample: &mut Sample, numbers: &[u32], position: u64) {
    let case = Search::new(numbers, position);
    let (call, at, answer) = (case.name(), position as usize, case.expected().answer());
    sample.add_entry(&Entry { call, at, offset: 0, arg: 0, answer, bytes: &low_first(numbers) });
}

fn write(sample: &mut Sample, numbers: &[u32], room: usize) {
    let case = Written::new(numbers, room);
    let seen = case.expected();
    let answer = seen.seen.answer();
    let written = if answer.code == code::ANSWERED { answer.words[0] as usize } else { 0 };
    let entry = Entry { call: case.name(), at: room, offset: 0, arg: 0, answer, bytes: &low_first(numbers) };
    sample.add_output(&entry, &seen.lent()[..written]);
}

fn low_first(numbers: &[u32]) -> Vec<u8> {
    assert!(numbers.len() <= MOST, "{} numbers", numbers.len());
    numbers.iter().flat_map(|number| number.to_le_bytes()).collect()
}
