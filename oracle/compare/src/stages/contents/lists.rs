//! Lists of numbers, in order and out of it.

use super::{any_numbers, as_a_file, far};
use crate::run::Run;
use crate::subjects::Search;
use protocol::Span;
use saves::Rng;

/// Of up to so many numbers, each below five: all of them.
const MOST_NUMBERS: usize = 6;

pub fn few_numbers(run: &mut Run) {
    each_from(&mut Vec::new(), &mut |list| {
        for position in 0..=6 {
            run.check(&Search::new(list, position));
        }
        as_a_file(run, list);
    });
}

fn each_from(list: &mut Vec<u32>, check: &mut impl FnMut(&[u32])) {
    check(list);
    if list.len() == MOST_NUMBERS {
        return;
    }
    for number in 0..5 {
        list.push(number);
        each_from(list, check);
        list.pop();
    }
}

/// Lists of each number of entries up to some, and about powers of two, searched at every position; and each changed.
pub fn of_each_size(run: &mut Run, rng: &mut Rng) {
    for size in (0..=40).chain([63, 64, 65, 127, 128, 129, 255, 256, 257, 1000]) {
        let list = in_steps(rng, size);
        let last = list.last().map_or(0, |[_, end]| u64::from(*end));
        for position in far(last + 2) {
            run.check(&Search::new(list.as_flattened(), position));
        }
        as_a_file(run, list.as_flattened());
        for numbers in changed(&list) {
            any_numbers(run, &numbers);
        }
    }
    for list in widest() {
        for end in list {
            for position in [end.saturating_sub(1), *end].map(u64::from).into_iter().chain(far(1)) {
                run.check(&Search::new(list, position));
            }
        }
        as_a_file(run, list);
    }
}

/// Of entries of one to five bytes.
fn in_steps(rng: &mut Rng, size: usize) -> Vec<Span> {
    let mut start = rng.below(5) as u32;
    let mut entry = || {
        let end = start + 1 + rng.below(5) as u32;
        [std::mem::replace(&mut start, end), end]
    };
    (0..size).map(|_| entry()).collect()
}

/// To the ends of 32 bits.
fn widest() -> [&'static [u32]; 5] {
    const MOST: u32 = u32::MAX;
    const HALF: u32 = 1 << 31;
    [
        &[0, MOST],
        &[MOST - 1, MOST],
        &[0, 1, 1, MOST],
        &[HALF - 1, HALF, HALF, MOST],
        &[0, HALF, HALF, MOST - 1, MOST - 1, MOST],
    ]
}

/// The list with a change at its first entries, in the middle or at its last ones: an entry that ends where it starts or
/// before, a gap before or after it, an overlap; with its first entry moved to the end; and with numbers that do not make
/// entries. Few of them are in order.
pub fn changed(list: &[Span]) -> impl Iterator<Item = Vec<u32>> {
    let (len, numbers) = (list.len(), list.as_flattened());
    let mut places = vec![0, 1, len / 2, len.wrapping_sub(2), len.wrapping_sub(1)];
    places.retain(|place| *place < len);
    places.sort_unstable();
    places.dedup();
    let one = places.into_iter().flat_map(move |place| {
        let [start, end] = list[place];
        let more = end.wrapping_add(1);
        let less = start.wrapping_sub(1);
        let entries = [[start, start], [end, end], [end, start], [start + 1, end], [less, end], [start, more]];
        entries.into_iter().map(move |entry| {
            let mut list = list.to_vec();
            list[place] = entry;
            list.as_flattened().to_vec()
        })
    });
    let odd = [numbers.split_last().map_or(&[0][..], |(_, fewer)| fewer).to_vec(), [numbers, &[u32::MAX]].concat()];
    let moved = (len > 1).then(|| [&numbers[2..], &numbers[..2]].concat());
    one.chain(odd).chain(moved)
}
