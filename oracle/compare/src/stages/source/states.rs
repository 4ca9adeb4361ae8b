//! States whose numbers fit and states whose numbers do not, in every mixture.

use super::every_op;
use crate::run::Run;
use crate::subjects::Sequence;
use protocol::{Numbers, STATE_WORDS, Source};
use saves::Rng;

const MAX: usize = usize::MAX;
const PLACES: [usize; 7] = [0, 1, 2, 3, 4, MAX - 1, MAX];
const CURSORS: [usize; 5] = [0, 1, 2, 3, MAX];
const POSITIONS: [usize; 9] = [0, 1, MAX / 2, MAX - 5, MAX - 4, MAX - 3, MAX - 2, MAX - 1, MAX];

pub fn states(run: &mut Run, rng: &mut Rng) {
    for streaming in [true, false] {
        let source = Source { streaming, ..Source::stream(vec![1, 2, 3], vec![4, 5], vec![1]) };
        for (start, end) in pairs(PLACES) {
            for (supply, schedule) in pairs(CURSORS) {
                for position in POSITIONS {
                    one(run, &source, Numbers { start, end, supply, schedule, position });
                }
            }
        }
        for _ in 0..1000 {
            let words = [(); STATE_WORDS].map(|()| if rng.one_in(2) { rng.any_size() } else { rng.below(4) as u64 });
            one(run, &source, Numbers::of_words(words));
        }
    }
}

fn pairs<const N: usize>(of: [usize; N]) -> impl Iterator<Item = (usize, usize)> {
    of.into_iter().flat_map(move |first| of.map(|second| (first, second)))
}

fn one(run: &mut Run, source: &Source, numbers: Numbers) {
    let source = Source { given: Some(numbers), ..source.clone() };
    run.check(&Sequence::new(source, every_op(&[1]).collect()));
}
