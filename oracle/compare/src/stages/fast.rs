//! The fast step on all ids, on windows of up to 40 bytes, and on strings about the window's end.

use crate::run::Run;
use crate::subjects::Fast;
use saves::ids::TEXTS;
use saves::{RESERVED, Rng};

const LONGEST: usize = 40;

pub fn fast(run: &mut Run, rng: &mut Rng) {
    all_ids(run, rng);
    texts(run, rng);
    for count in (0..=7).chain(9..=16) {
        for window in [&[1; 16][..], &[0x14; 40], &[]] {
            run.check(&Fast::new(&vec![7; count], window));
        }
    }
}

/// At every length; those about the reserved ones with more that follows.
fn all_ids(run: &mut Run, rng: &mut Rng) {
    for id in 0..=u16::MAX {
        if id % 1024 == 0 {
            run.progress("fast steps", id.into(), 65536);
        }
        let near = RESERVED.iter().any(|reserved| reserved.abs_diff(id) <= 2);
        for round in 0..if near { 12 } else { 1 } {
            let mut window = id.to_le_bytes().to_vec();
            match round {
                0 => window.resize(LONGEST, 0xff),
                1 => window.resize(LONGEST, 0),
                2 => window.extend((1..=LONGEST as u8 - 2).map(|at| 0x80 + at)),
                _ => rng.fill(&mut window, LONGEST - 2),
            }
            for len in 0..=LONGEST {
                run.check(&Fast::new(&rng.number().to_le_bytes(), &window[..len]));
            }
        }
    }
}

/// Strings that end some bytes before the window's end, at it, and past it.
fn texts(run: &mut Run, rng: &mut Rng) {
    let windows = (0..=LONGEST).chain([255, 256, 259, 260, 261, 4096, 65_534, 65_535, 65_538, 65_539, 65_540, 65_600]);
    for window_len in windows {
        for id in TEXTS {
            let about = window_len.saturating_sub(7)..=window_len + 2;
            for text_len in about.chain([0, 1, 0x0100, 0xff00, 0xffff]).filter_map(|len| u16::try_from(len).ok()) {
                let mut window = [id.to_le_bytes(), text_len.to_le_bytes()].concat();
                window.resize(window_len, 0x74);
                run.check(&Fast::new(&rng.number().to_le_bytes(), &window));
            }
        }
    }
}
