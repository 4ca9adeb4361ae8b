//! Lists of numbers, whether they make entries or not.

use crate::shrink::{cuts, less, without};
use protocol::list_words;

/// Fewer of the numbers, and each of them lower.
pub fn simpler(list: &[u32]) -> impl Iterator<Item = Vec<u32>> {
    let lower = (0..list.len()).flat_map(move |at| {
        less(list[at] as usize).map(move |number| {
            let mut lower = list.to_vec();
            lower[at] = number as u32;
            lower
        })
    });
    cuts(list.len()).map(|cut| without(list, &cut)).chain(lower)
}

/// As a request has it, where the numbers make entries.
pub fn in_words(list: &[u32]) -> String {
    let (entries, odd) = list.as_chunks();
    let words = list_words(entries);
    match odd {
        [] => words,
        odd => format!("{words} and the number {}", odd[0]),
    }
}
