//! Lists that are too short, and states of no source.

use super::every_op;
use crate::case::ROOM;
use crate::run::Run;
use crate::subjects::{BadLists, NewSource, STATE_ROOM, lent_words};
use protocol::{Numbers, Op, STATE_WORDS, Source, WORDS};

/// Sixth words that are neither a slice's nor a stream's, of which some are so in their low bytes.
const NO_KINDS: [u64; 7] = [2, 3, 256, 257, 1 << 32, (1 << 32) + 1, u64::MAX];

pub fn lists(run: &mut Run) {
    let stream = Source::stream(vec![1, 0, 7, 7], vec![2, 0, 3, 0, 4], vec![2, Source::FAILS]);
    let given = Some(Numbers { start: 2, end: 1, supply: 9, schedule: 3, position: 5 });
    let bad = Source { given, ..stream.clone() };
    for source in [Source::slice(vec![1, 0, 7, 7]), stream, bad] {
        for op in every_op(&[0, 1, 3, 9]).chain([Op::Window]) {
            one(run, &source, op);
        }
    }
    for len in [0, 1, 2, 255, 256, 70_000] {
        for source in [Source::slice(vec![7; len]), Source::stream(vec![7; len], vec![7; len], vec![1])] {
            for state_room in 0..=STATE_ROOM {
                run.check(&NewSource { source: &source, state_room });
            }
        }
    }
}

fn one(run: &mut Run, source: &Source, op: Op) {
    let state = lent_words(source.words());
    for room in 0..WORDS {
        for state_room in [0, STATE_WORDS - 1, STATE_WORDS, STATE_ROOM] {
            run.check(&BadLists { op, source, state, state_room, room });
        }
    }
    for room in [WORDS, ROOM] {
        for state_room in 0..STATE_WORDS {
            run.check(&BadLists { op, source, state, state_room, room });
        }
        for kind in NO_KINDS {
            let mut state = state;
            state[STATE_WORDS - 1] = kind;
            for state_room in [STATE_WORDS, STATE_ROOM] {
                run.check(&BadLists { op, source, state, state_room, room });
            }
        }
    }
}
