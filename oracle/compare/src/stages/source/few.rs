//! All sources of few bytes, by all short schedules: each operation from each state.

use super::every_op;
use crate::run::Run;
use crate::subjects::Sequence;
use protocol::{Numbers, Op, Source};

const LONGEST_BUFFER: usize = 4;
const LONGEST_SUPPLY: usize = 3;
const ENTRIES: [u32; 4] = [0, 1, 2, Source::FAILS];

/// Bytes that are all different, and bytes that are the length of a short text wherever it begins.
const CONTENTS: [([u8; LONGEST_BUFFER], [u8; LONGEST_SUPPLY]); 2] =
    [([0xb1, 0xb2, 0xb3, 0xb4], [0xc1, 0xc2, 0xc3]), ([1, 0, 1, 0], [0, 1, 0])];

pub fn few(run: &mut Run) {
    let ops: Vec<Op> = every_op(&[0, 1, 2, 3, 4, 5, usize::MAX]).collect();
    for (at, (buffer, supply)) in CONTENTS.iter().enumerate() {
        run.progress("sources of few bytes", at, CONTENTS.len());
        for source in streams(buffer, supply).into_iter().chain(slices(buffer)) {
            for op in &ops {
                run.check(&Sequence::new(source.clone(), vec![*op]));
            }
        }
    }
}

/// Every window and every cursor, in all of the first bytes.
fn streams(buffer: &[u8], supply: &[u8]) -> Vec<Source> {
    let schedules = schedules();
    let mut all = Vec::new();
    for (len, start, end) in windows(buffer.len()) {
        for (supply_len, cursor) in (0..=supply.len()).flat_map(|len| (0..=len).map(move |at| (len, at))) {
            let given = Some(Numbers { start, end, supply: cursor, schedule: 0, position: 7 });
            let (buffer, supply) = (&buffer[..len], &supply[..supply_len]);
            let stream = |schedule: &Vec<u32>| Source::stream(buffer.to_vec(), supply.to_vec(), schedule.clone());
            all.extend(schedules.iter().map(|schedule| Source { given, ..stream(schedule) }));
        }
    }
    all
}

fn slices(bytes: &[u8]) -> impl Iterator<Item = Source> {
    windows(bytes.len()).map(|(len, start, end)| {
        let given = Some(Numbers { start, end, supply: len, schedule: 0, position: start });
        Source { given, ..Source::slice(bytes[..len].to_vec()) }
    })
}

/// All lengths with all windows in them.
fn windows(longest: usize) -> impl Iterator<Item = (usize, usize, usize)> {
    let ends = (0..=longest).flat_map(|len| (0..=len).map(move |end| (len, end)));
    ends.flat_map(|(len, end)| (0..=end).map(move |start| (len, start, end)))
}

/// All of up to two entries.
fn schedules() -> Vec<Vec<u32>> {
    let mut all = vec![Vec::new()];
    for first in ENTRIES {
        all.push(vec![first]);
        all.extend(ENTRIES.map(|second| vec![first, second]));
    }
    all
}
