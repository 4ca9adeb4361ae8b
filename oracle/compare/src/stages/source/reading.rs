//! Colours and texts that come in pieces, through buffers of all lengths about theirs.

use crate::run::Run;
use crate::subjects::Sequence;
use protocol::{Numbers, Op, Source};
use saves::cut_and_changed_colours;

/// Asked again, a call goes on where a read failed or gave nothing.
const ROUNDS: usize = 5;

fn schedules() -> [Vec<u32>; 5] {
    let halting = vec![4, Source::FAILS, 0, 5, Source::FAILS, 9, 0, 2, 0];
    [Vec::new(), vec![1; 40], vec![3; 12], vec![6, 0, 6, 0, 6, 0, 6, 0], halting]
}

pub fn colours(run: &mut Run) {
    for colour in cut_and_changed_colours().iter().filter_map(|colour| colour.get(2..)) {
        let ops = vec![Op::ReadRgb; ROUNDS];
        run.check(&Sequence::new(Source::slice(colour.to_vec()), ops.clone()));
        for buffer in (0..=8).chain([21, 22, 23, 27, 28, 29, 40]) {
            for schedule in schedules() {
                let source = Source::stream(vec![0xee; buffer], colour.to_vec(), schedule);
                run.check(&Sequence::new(source, ops.clone()));
            }
        }
    }
}

/// Texts at the ends of one and two bytes of length, in a little too few bytes, just enough, and more.
pub fn texts(run: &mut Run) {
    for len in [0u16, 1, 2, 3, 5, 16, 127, 128, 254, 255, 256, 257, 32_767, 32_768, 65_534, 65_535] {
        let whole = 2 + usize::from(len);
        for there in whole - 1..=whole + 2 {
            let supply: Vec<u8> = len.to_le_bytes().into_iter().chain((1..=251).cycle()).take(there).collect();
            run.check(&Sequence::new(Source::slice(supply.clone()), vec![Op::ReadBstr, Op::ReadBstr]));
            for buffer in [whole - 2, whole - 1, whole, whole + 1, whole + 9] {
                for schedule in [Vec::new(), vec![1, 2, 60, 1], vec![2, Source::FAILS, 1, 0, 3, Source::FAILS]] {
                    text(run, Source::stream(vec![0xee; buffer], supply.clone(), schedule));
                }
            }
        }
    }
}

/// From the buffer's start, and from its end with one byte of the text's length already there.
fn text(run: &mut Run, source: Source) {
    let ops = vec![Op::ReadBstr; ROUNDS];
    if let Some(end) = source.buffer.len().checked_sub(1) {
        let mut source = source.clone();
        let given = Numbers { start: end, end: end + 1, supply: 1, schedule: 0, position: usize::MAX - 70_000 };
        source.buffer[end] = source.supply[0];
        run.check(&Sequence::new(Source { given: Some(given), ..source }, ops.clone()));
    }
    run.check(&Sequence::new(source, ops));
}
