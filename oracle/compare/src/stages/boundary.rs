//! Sizes at which something could turn.

use super::sweep::{TOKENS, along, every_call};
use crate::offsets::at_each;
use crate::run::Run;
use crate::subjects::{Count, Lex, Text};
use protocol::Call;
use saves::ids::TEXTS;
use saves::{Flavour, Plan, Rng, save};

pub fn boundary(run: &mut Run, rng: &mut Rng) {
    texts(run);
    nesting(run);
    parts(run);
    for flavour in Flavour::ALL {
        run.progress("large saves", flavour as usize, Flavour::ALL.len());
        large(run, rng, flavour);
    }
}

/// Texts at the limits of one and two bytes of length, in inputs a little too short, just right, and too long.
fn texts(run: &mut Run) {
    for id in TEXTS {
        for len in [0u16, 1, 2, 127, 128, 255, 256, 257, 299, 300, 32767, 32768, 65534, 65535] {
            let input = [&id.to_le_bytes()[..], &len.to_le_bytes(), &vec![4; usize::from(len) + 1]].concat();
            for cut in 0..=2.min(input.len() - 4) {
                let input = &input[..input.len() - cut];
                for at in [0, 2, 4, input.len() - 1, input.len(), input.len() + 1] {
                    every_call(run, input, at, at_each);
                }
                at_each(run, &Lex::new(input, 2, Call::SkipValue(id)));
            }
        }
    }
}

/// Depths at the limits of one and two bytes.
fn nesting(run: &mut Run) {
    for depth in [1, 127, 128, 255, 256, 32767, 32768, 65535, 65536, 70000] {
        let opens = [3, 0].repeat(depth);
        for closes in [depth - 1, depth, depth + 1, depth + 2] {
            let input = [opens.as_slice(), &[4, 0].repeat(closes)].concat();
            for at in [0, 2, 2 * depth - 2, 2 * depth, input.len() - 1] {
                at_each(run, &Lex::new(&input, at, Call::SkipContainer));
                at_each(run, &Lex::new(&input, at, Call::SkipValue(3)));
            }
            run.check(&Count::new(&input));
        }
    }
}

/// Starts and lengths whose sum is at the end of the input or of all numbers.
fn parts(run: &mut Run) {
    let bytes = [7; 9];
    let ends = [0, 1, 2, 8, 9, 10, usize::MAX - 9, usize::MAX - 1, usize::MAX];
    for start in ends {
        for len in ends {
            run.check(&Text::new(&bytes, start, len));
            at_each(run, &Lex::new(&bytes, start, Call::ReadBytes(len)));
        }
    }
}

/// A save of some hundred thousand bytes: from its start, from some places, and in one container.
fn large(run: &mut Run, rng: &mut Rng, flavour: Flavour) {
    let mut bytes = save(Plan { flavour, size: 200_000, longest_text: 70_000 }, rng);
    run.check(&Count::new(&bytes));
    bytes.extend([4, 0, 4, 0]);
    along(run, &bytes, at_each);
    for _ in 0..60 {
        let at = rng.below(bytes.len() + 2);
        for call in TOKENS {
            at_each(run, &Lex::new(&bytes, at, call));
        }
    }
    at_each(run, &Lex::new(&bytes, 0, Call::SkipContainer));
}
