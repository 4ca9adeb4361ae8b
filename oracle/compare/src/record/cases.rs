//! What is asked: every call, kind, refusal and id, in few bytes.

use super::sample::{LONGEST, Sample};
use crate::offsets::Placed;
use crate::stages::specimen_requests;
use crate::subjects::{Count, Kind, Lex, Split, Text};
use protocol::{Call, Request, code};
use saves::ids::{CLOSE, OPEN, RGB, TEXTS};
use saves::{
    Flavour, Payload, Plan, RESERVED, Rng, bad_colour, cut_and_changed_colours, flip, payload, random_bytes,
    random_ids, save, token,
};

pub fn all(sample: &mut Sample, seed: u64) {
    let mut rng = Rng::new(seed);
    specimens(sample);
    kinds(sample);
    splits(sample);
    parts(sample);
    patterns(sample);
    ids(sample, &mut rng);
    texts(sample);
    colours(sample, &mut rng);
    nesting(sample);
    places(sample, &mut rng);
    for flavour in Flavour::ALL {
        saves(sample, &mut rng, flavour);
    }
    noise(sample, &mut rng);
}

fn specimens(sample: &mut Sample) {
    for (_, request) in specimen_requests() {
        match request {
            Request::Lex { bytes, at, offset, call } => {
                sample.add(&Lex::new(&bytes, at, call).at_offset(offset));
                sample.add(&Count::new(&bytes));
            }
            Request::Kind(id) => sample.add(&Kind(id)),
            _ => {}
        }
    }
}

/// Every reserved id and its neighbours, and the ends of one and two bytes.
fn kinds(sample: &mut Sample) {
    for id in RESERVED {
        for near in id - 1..=id + 1 {
            sample.add(&Kind(near));
        }
    }
    for id in [0, 0x00ff, 0x0100, 0x0d58, 0x7fff, 0xffff] {
        sample.add(&Kind(id));
    }
}

fn splits(sample: &mut Sample) {
    for len in [0, 1, 2, 3, 8, 9, 32] {
        let bytes: Vec<u8> = (1..=len as u8).collect();
        for count in [0, 1, 2, 3, 4, 8, 9, 16, 32] {
            sample.add(&Split { bytes: bytes.clone(), count });
        }
    }
}

/// Starts and lengths whose sum is at the end of the input or of all numbers.
fn parts(sample: &mut Sample) {
    let bytes = [7; 9];
    let ends = [0, 1, 8, 9, 10, usize::MAX - 8, usize::MAX];
    for start in ends {
        for len in ends {
            sample.add(&Text::new(&bytes, start, len));
            sample.add(&Lex::new(&bytes, start, Call::ReadBytes(len)));
        }
    }
    for call in Call::PLAIN.iter().copied().chain([Call::SkipValue(OPEN)]) {
        for at in [8, 9, 10, usize::MAX] {
            sample.add(&Lex::new(&bytes, at, call));
        }
    }
}

/// Every call on the ends of the numbers and on a text, and on steps that are cut at every place.
fn patterns(sample: &mut Sample) {
    let steps: Vec<u8> = (1..=9).collect();
    let lowest = [0, 0, 0, 0x80, 0, 0, 0, 0x80, 0];
    let highest = [0xff, 0xff, 0xff, 0x7f, 0xff, 0xff, 0xff, 0x7f, 0xff];
    for call in Call::PLAIN.iter().copied() {
        for bytes in [[0; 9], [0xff; 9], lowest, highest, *b"\x03\0text\0\0\0"] {
            sample.add(&Lex::new(&bytes, 0, call));
        }
        for len in 0..=steps.len() {
            sample.add(&Lex::new(&steps[..len], 0, call));
        }
    }
}

/// Each reserved id, some beside them and some far off, with several payloads.
fn ids(sample: &mut Sample, rng: &mut Rng) {
    for id in RESERVED.into_iter().chain([0x0000, 0x0002, 0x0d56, 0x0d59, 0x0d5f, 0x2801, 0xffff]) {
        if let Payload::Bytes(count @ 1..) = payload(id) {
            for byte in [0, 1, 0x80, 0xff] {
                let bytes = [&id.to_le_bytes()[..], &vec![byte; count]].concat();
                sample.add(&Lex::new(&bytes, 0, Call::ReadToken));
            }
        }
        one_id(sample, &token(rng, id, 8), id);
    }
}

/// A token with something after it, and cut at every place.
fn one_id(sample: &mut Sample, whole: &[u8], id: u16) {
    let followed = [whole, &CLOSE.to_le_bytes(), &[0x5a; 3]].concat();
    for call in [Call::ReadToken, Call::PeekToken, Call::ReadId, Call::PeekId, Call::SkipContainer] {
        sample.add(&Lex::new(&followed, 0, call));
    }
    sample.add(&Lex::new(&followed, 2, Call::SkipValue(id)));
    sample.add(&Count::new(whole));
    for len in 1..whole.len() {
        let bytes = &whole[..len];
        let tokens = [Call::ReadToken, Call::NextToken, Call::PeekToken];
        sample.add(&Lex::new(bytes, 0, tokens[len % tokens.len()]));
        sample.add(&Lex::new(bytes, 0, Call::SkipContainer));
        if len >= 2 {
            sample.add(&Lex::new(bytes, 2, Call::SkipValue(id)));
        }
    }
}

/// Texts with as many bytes as they say, with more and with fewer; a length's second byte counts too.
fn texts(sample: &mut Sample) {
    let sizes = [(0, 0), (1, 1), (252, 252), (252, 251), (128, 129), (0x0101, 3), (0xff02, 3)];
    for id in TEXTS {
        for (len, there) in sizes {
            let bytes = [&id.to_le_bytes()[..], &u16::to_le_bytes(len), &vec![0x74; there]].concat();
            sample.add(&Lex::new(&bytes, 0, Call::ReadToken));
            sample.add(&Lex::new(&bytes, 2, Call::ReadString));
            sample.add(&Lex::new(&bytes, 2, Call::SkipValue(id)));
            sample.add(&Text::new(&bytes, 4, len.into()));
        }
    }
}

/// Cut at every place, and with each of its ids changed; then some from the seed.
fn colours(sample: &mut Sample, rng: &mut Rng) {
    for bytes in cut_and_changed_colours() {
        colour(sample, &bytes);
    }
    for _ in 0..8 {
        colour(sample, &token(rng, RGB, 0));
        colour(sample, &bad_colour(rng));
    }
}

fn colour(sample: &mut Sample, bytes: &[u8]) {
    sample.add(&Lex::new(bytes, 0, Call::ReadToken));
    if bytes.len() >= 2 {
        for call in [Call::ReadRgb, Call::SkipValue(RGB), Call::SkipContainer] {
            sample.add(&Lex::new(bytes, 2, call));
        }
    }
}

/// Containers in containers, with an end too few, none too many, and one more.
fn nesting(sample: &mut Sample) {
    for depth in [1, 2, 3, 30, 63] {
        for closes in [depth - 1, depth, depth + 1] {
            let bytes = [[3, 0].repeat(depth), [4, 0].repeat(closes)].concat();
            for call in [Call::SkipContainer, Call::SkipValue(OPEN), Call::SkipValue(CLOSE)] {
                sample.add(&Lex::new(&bytes, 0, call));
                sample.add(&Lex::new(&bytes, 2, call));
            }
            sample.add(&Count::new(&bytes));
        }
    }
}

/// Every call at every place of one save, and just past it.
fn places(sample: &mut Sample, rng: &mut Rng) {
    let bytes = small(rng, Flavour::Mixture, 24);
    for at in 0..=bytes.len() + 1 {
        for call in Call::PLAIN.iter().copied().chain([Call::ReadBytes(5), Call::SkipValue(rng.pick(&RESERVED))]) {
            sample.add(&Lex::new(&bytes, at, call));
        }
    }
}

fn saves(sample: &mut Sample, rng: &mut Rng, flavour: Flavour) {
    for size in [20, 50] {
        along(sample, &small(rng, flavour, size));
    }
    for size in [10, 100, 200] {
        let mut bytes = small(rng, flavour, size);
        sample.add(&Count::new(&bytes));
        sample.add(&Lex::new(&bytes, 0, Call::SkipContainer));
        sample.add(&Count::new(&bytes[..rng.below(bytes.len())]));
        for _ in 0..3 {
            flip(rng, &mut bytes);
            sample.add(&Count::new(&bytes));
            sample.add(&Lex::new(&bytes, 0, Call::SkipContainer));
        }
    }
}

/// Token by token to the end.
fn along(sample: &mut Sample, save: &[u8]) {
    let bytes = [save, &CLOSE.to_le_bytes()].concat();
    let mut at = 0;
    loop {
        sample.add(&Lex::new(&bytes, at, Call::NextToken));
        sample.add(&Lex::new(&bytes, at, Call::PeekToken));
        let read = original::lex(&bytes, at, Call::ReadToken).expect("a place in the input");
        if read.code != code::ANSWERED {
            return;
        }
        if let Some(text) = original::text(&bytes, at) {
            sample.add(&Text::new(&bytes, read.words[2] as usize, text.len()));
        }
        let id = u16::from_le_bytes([bytes[at], bytes[at + 1]]);
        sample.add(&Lex::new(&bytes, at + 2, Call::SkipValue(id)));
        at = read.words[0] as usize;
    }
}

/// Random bytes, random ids and spoilt colours, each asked everything at one place.
fn noise(sample: &mut Sample, rng: &mut Rng) {
    for round in 0..15 {
        let bytes = match round % 3 {
            0 => random_bytes(rng, 32),
            1 => random_ids(rng, 32),
            _ => bad_colour(rng),
        };
        let at = if rng.one_in(3) { 0 } else { rng.below(bytes.len() + 1) };
        let count = rng.below(bytes.len() - at + 3);
        for call in Call::PLAIN.iter().copied().chain([Call::ReadBytes(count), Call::SkipValue(rng.pick(&RESERVED))]) {
            sample.add(&Lex::new(&bytes, at, call));
        }
        sample.add(&Count::new(&bytes));
    }
}

/// About so many bytes, and never more than are recorded with one id after them.
fn small(rng: &mut Rng, flavour: Flavour, size: usize) -> Vec<u8> {
    loop {
        let bytes = save(Plan { flavour, size, longest_text: 12 }, rng);
        if bytes.len() + 2 <= LONGEST {
            return bytes;
        }
    }
}
