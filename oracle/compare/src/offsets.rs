//! Where in a file an input begins: at its start, as of the original, and at offsets about the largest that fits.

use crate::case::Case;
use crate::run::Run;
use protocol::{Answer, code};

/// A question with a cursor, at the offset 0.
pub trait Placed: Case {
    fn len(&self) -> usize;

    /// A number that other cases do not have, as far as that is quickly told.
    fn turn(&self) -> usize;

    fn at_offset(&self, offset: usize) -> Self;
}

/// Beside 0: a small one, the largest that fits, the first that does not, and the largest number; each once. All fit an
/// input of no bytes.
pub fn offsets(len: usize) -> impl Iterator<Item = usize> + Clone {
    let last = usize::MAX - len;
    let too_large = [last.checked_add(1), (len > 1).then_some(usize::MAX)];
    [100, last].into_iter().chain(too_large.into_iter().flatten())
}

/// At 0 and at each other.
pub fn at_each(run: &mut Run, case: &impl Placed) {
    run.check(case);
    for offset in offsets(case.len()) {
        run.check(&case.at_offset(offset));
    }
}

/// Of so many cases one is asked at another offset too.
const ONE_IN: usize = 8;

/// At 0, and one case in some at one other too.
#[inline]
pub fn at_some(run: &mut Run, case: &impl Placed) {
    run.check(case);
    if let Some(offset) = chosen(case) {
        run.check(&case.at_offset(offset));
    }
}

/// The case alone says whether, and at which: every run asks the same.
#[inline]
fn chosen(case: &impl Placed) -> Option<usize> {
    let turn = spread(case.turn());
    turn.is_multiple_of(ONE_IN).then(|| one_of_them(case.len(), turn / ONE_IN))
}

fn one_of_them(len: usize, turn: usize) -> usize {
    let offsets = offsets(len);
    offsets.clone().nth(turn % offsets.count()).expect("there are some")
}

/// Numbers that are near each other become numbers far apart.
#[inline]
fn spread(number: usize) -> usize {
    number.wrapping_mul(0x9e37_79b9_7f4a_7c15) >> 32
}

/// A number of an input and a place in it, for a case's turn. Of a long input the first bytes are enough.
#[inline]
pub fn turn(bytes: &[u8], at: usize) -> usize {
    let front = bytes.iter().take(4).fold(0, |number, byte| number << 8 | usize::from(*byte));
    front.wrapping_add(at << 20).wrapping_add(bytes.len() << 10)
}

/// The words before a request.
pub fn in_file(offset: usize) -> String {
    if offset == 0 { String::new() } else { format!("at {offset} ") }
}

/// The offset is looked at first, and then the cursor; nothing where both fit.
#[inline]
pub fn bad_place(bytes: &[u8], at: usize, offset: usize) -> Option<Answer> {
    let bad = |place| Some(Answer::refused(code::BAD_PLACE, at, place));
    match (original::fits(bytes, offset), at <= bytes.len()) {
        (false, _) => bad(offset),
        (true, false) => bad(at),
        (true, true) => None,
    }
}

#[cfg(test)]
mod tests {
    use super::{bad_place, chosen, offsets};
    use crate::subjects::{Find, Lex};
    use protocol::{Answer, Call, code};
    use std::collections::BTreeMap;

    const MAX: usize = usize::MAX;

    #[test]
    fn about_the_largest_that_fits() {
        let listed = |len| offsets(len).collect::<Vec<_>>();
        assert_eq!(listed(0), [100, MAX]);
        assert_eq!(listed(1), [100, MAX - 1, MAX]);
        assert_eq!(listed(2), [100, MAX - 2, MAX - 1, MAX]);
        assert_eq!(listed(9), [100, MAX - 9, MAX - 8, MAX]);
    }

    #[test]
    fn the_offset_before_the_cursor() {
        let refused = |at, place| Some(Answer::refused(code::BAD_PLACE, at, place));
        assert_eq!(bad_place(&[1, 2], 2, MAX - 2), None);
        assert_eq!(bad_place(&[1, 2], 3, MAX - 2), refused(3, 3));
        assert_eq!(bad_place(&[1, 2], 0, MAX - 1), refused(0, MAX - 1));
        assert_eq!(bad_place(&[1, 2], 3, MAX - 1), refused(3, MAX - 1));
        assert_eq!(bad_place(&[], 0, MAX), None);
        assert_eq!(bad_place(&[], 1, MAX), refused(1, 1));
    }

    /// Of all inputs of two bytes some are asked at each offset, whatever the call and the cursor.
    #[test]
    fn every_call_has_its_turn_at_every_offset() {
        let calls = Call::PLAIN.iter().copied().chain([Call::ReadBytes(2), Call::SkipValue(3)]);
        for (call, at) in calls.flat_map(|call| [0, 1, 2, 3].map(|at| (call, at))) {
            seen(&format!("{call} {at}"), |bytes| chosen(&Lex::new(bytes, at, call)));
        }
        for (id, at) in [0x2801, 0x2802].into_iter().flat_map(|id| [0, 1, 2, 3].map(|at| (id, at))) {
            seen(&format!("find {at} {id}"), |bytes| chosen(&Find::new(bytes, at, id)));
        }
    }

    fn seen(what: &str, chosen: impl Fn(&[u8]) -> Option<usize>) {
        let mut counts = BTreeMap::new();
        for input in 0..=u16::MAX {
            *counts.entry(chosen(&input.to_le_bytes())).or_insert(0) += 1;
        }
        assert!(counts[&None] < 60_000, "{what}: {counts:?}");
        for offset in offsets(2) {
            assert!(counts.get(&Some(offset)).is_some_and(|count| *count > 1000), "{what}: {offset}, {counts:?}");
        }
    }
}
