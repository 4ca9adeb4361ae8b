//! All ids, and all short inputs.

use super::rescuing::with_more_room;
use super::sweep::{TOKENS, every_call, tokens_at_every_place};
use super::whole::one_save;
use crate::offsets::at_some;
use crate::run::Run;
use crate::subjects::{Count, Kind, Lex, Sequence, Split};
use original::LARGEST_COUNT;
use protocol::{Call, Op, Source};
use saves::RESERVED;

pub fn all_kinds(run: &mut Run) {
    for id in 0..=u16::MAX {
        run.check(&Kind(id));
    }
}

pub fn splits(run: &mut Run) {
    for len in 0..=LARGEST_COUNT + 2 {
        let bytes: Vec<u8> = (0..len).map(|byte| byte as u8).collect();
        for count in 0..=LARGEST_COUNT {
            run.check(&Split { bytes: bytes.clone(), count });
        }
    }
}

const THREE: usize = 3;

/// All inputs of up to so many bytes; and every call at the start of all inputs of three, and what is rescued of them.
pub fn all_short_inputs(run: &mut Run, longest: usize) {
    short_input(run, &[]);
    run.shared("short inputs, by their first byte", 0..=u8::MAX, |run, first| {
        each_from(run, &mut vec![first], longest, short_input);
        if longest < THREE {
            each_from(run, &mut vec![first], THREE, at_the_start_of_three);
        }
    });
}

/// These bytes, and all that begin with them, up to so many.
fn each_from(run: &mut Run, bytes: &mut Vec<u8>, longest: usize, check: fn(&mut Run, &[u8])) {
    if bytes.len() > longest {
        return;
    }
    check(run, bytes);
    for next in 0..=u8::MAX {
        bytes.push(next);
        each_from(run, bytes, longest, check);
        bytes.pop();
    }
}

fn at_the_start_of_three(run: &mut Run, bytes: &[u8]) {
    if bytes.len() == THREE {
        every_call(run, bytes, 0, at_some);
        run.check(&Count::new(bytes));
        with_more_room(run, bytes);
    }
}

/// Every call at every place, and the input as a whole save and as a source.
fn short_input(run: &mut Run, bytes: &[u8]) {
    for at in 0..=bytes.len() + 1 {
        every_call(run, bytes, at, at_some);
    }
    run.check(&Count::new(bytes));
    one_save(run, bytes);
    let reads = vec![Op::PeekLexemeId, Op::ReadRgb, Op::ReadBstr, Op::ReadLexemeId];
    run.check(&Sequence::new(Source::slice(bytes.to_vec()), reads));
}

/// Each id with several payloads, each cut at every place; the ids around the reserved ones more thoroughly.
pub fn all_ids(run: &mut Run) {
    let patterns = patterns();
    for id in 0..=u16::MAX {
        if id % 1024 == 0 {
            run.progress("ids", id.into(), 65536);
        }
        let near = RESERVED.iter().any(|reserved| reserved.abs_diff(id) <= 2);
        for pattern in &patterns {
            let input = [&id.to_le_bytes()[..], pattern].concat();
            let lengths = if near { 0..=input.len() } else { 0..=6 };
            for len in lengths {
                one_id(run, &input[..len], id);
            }
            if near {
                tokens_at_every_place(run, &input);
            }
        }
    }
}

fn one_id(run: &mut Run, input: &[u8], id: u16) {
    for call in TOKENS.into_iter().chain([Call::ReadId, Call::NextId, Call::PeekId]) {
        at_some(run, &Lex::new(input, 0, call));
    }
    at_some(run, &Lex::new(input, 2, Call::SkipValue(id)));
    run.check(&Count::new(input));
}

/// Zeros, ones, a short text, the steps of a number, and colours with and without alpha.
fn patterns() -> Vec<Vec<u8>> {
    let channel = [0x14, 0, 1, 2, 3, 0x84];
    let colour = |channels| [&[3, 0][..], &channel.repeat(channels), &[4, 0, 4, 0]].concat();
    vec![
        vec![0; 32],
        vec![0xff; 32],
        vec![5, 0, 4, 0, 3, 0, 4, 0, 4, 0],
        (1..=32).collect(),
        colour(3),
        colour(4),
        colour(5),
    ]
}
