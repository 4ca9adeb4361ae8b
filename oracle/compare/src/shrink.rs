//! From a difference to the smallest one near it.

use crate::case::Case;
use std::ops::Range;
use std::time::{Duration, Instant};

/// For each difference; only large inputs want so much.
const LIMIT: Duration = Duration::from_secs(10);

/// Nothing where no smaller question differs.
pub fn shrink<C: Case>(case: &C) -> Option<C> {
    let end = Instant::now() + LIMIT;
    let mut best: Option<C> = None;
    loop {
        let from = best.as_ref().unwrap_or(case);
        let next = from.smaller().take_while(|_| Instant::now() < end).find(C::differs);
        match next {
            Some(smaller) => best = Some(smaller),
            None => return best,
        }
    }
}

/// Parts to leave out of a list: all, halves, and so on down to single ones.
pub fn cuts(len: usize) -> impl Iterator<Item = Range<usize>> {
    let sizes = std::iter::successors(Some(len), |size| Some(size / 2)).take_while(|size| *size > 0);
    sizes.flat_map(move |size| (0..len).step_by(size).map(move |start| start..len.min(start + size)))
}

pub fn without<T: Clone>(list: &[T], cut: &Range<usize>) -> Vec<T> {
    [&list[..cut.start], &list[cut.end..]].concat()
}

/// A cut before a place takes the place along.
pub fn moved(at: usize, cut: &Range<usize>) -> usize {
    at - cut.end.min(at).saturating_sub(cut.start)
}

/// Fewer of the bytes, and more of them zero.
pub fn simpler(bytes: &[u8]) -> impl Iterator<Item = Vec<u8>> {
    cuts(bytes.len()).map(|cut| without(bytes, &cut)).chain(zeroed(bytes))
}

/// The bytes with more of them zero.
pub fn zeroed(bytes: &[u8]) -> impl Iterator<Item = Vec<u8>> {
    let parts = cuts(bytes.len()).filter(|part| bytes[part.clone()].iter().any(|byte| *byte != 0));
    parts.map(|part| {
        let mut plainer = bytes.to_vec();
        plainer[part].fill(0);
        plainer
    })
}

/// Where an input begins that so much is cut out of: where it did, and where it ends as it did.
pub fn begun(offset: usize, cut: usize) -> impl Iterator<Item = usize> {
    let later = offset.checked_add(cut).filter(|_| offset > 0);
    [Some(offset), later].into_iter().flatten()
}

pub fn less(number: usize) -> impl Iterator<Item = usize> {
    [0, number / 2, number.saturating_sub(1)].into_iter().filter(move |smaller| *smaller < number)
}
