//! What is rescued of saves with strays, with containers left open, and cut anywhere.

use super::whole::rooms;
use crate::rescued::rescued;
use crate::run::Run;
use crate::subjects::{Form, Settled, Whole};
use saves::ids::TEXTS;
use saves::{Flavour, Plan, RESERVED, Rng, bad_colour, cut_and_changed_colours, flip, random_ids, save};

const OPEN: [u8; 2] = [3, 0];
const CLOSE: [u8; 2] = [4, 0];

pub fn rescuing(run: &mut Run, rng: &mut Rng, cases: usize) {
    run.shared("brackets, by how they begin", beginnings(), |run, (first, second)| {
        each_from(run, &mut [first, second].concat(), 2);
    });
    refused_ids(run, rng);
    colours(run);
    texts(run);
    many(run);
    for flavour in Flavour::ALL {
        large(run, rng, flavour);
    }
    for case in 0..cases {
        if case % 64 == 0 {
            run.progress("rescued saves", case, cases);
        }
        one(run, rng, case);
    }
}

/// Both ends of a container, and a value whose payload looks like one of them.
const BRACKETS: [&[u8]; 3] = [&OPEN, &CLOSE, &[0x3e, 0x0d, 4, 0]];
const MOST: usize = 9;
/// What cannot be read: half an id, a text that ends too soon, and a payload that does.
const REFUSED: [&[u8]; 3] = [&[4], &[0x0f, 0, 9, 0, 4, 0], &[0x3f, 0x0d, 4, 0, 3]];

fn beginnings() -> impl Iterator<Item = (&'static [u8], &'static [u8])> + Send {
    BRACKETS.into_iter().flat_map(|first| BRACKETS.map(|second| (first, second)))
}

/// All that begin so, to the end, and with something after it that is refused.
fn each_from(run: &mut Run, bytes: &mut Vec<u8>, count: usize) {
    one_save(run, bytes);
    let len = bytes.len();
    for refused in REFUSED {
        bytes.extend(refused);
        with_more_room(run, bytes);
        bytes.truncate(len);
    }
    if count == MOST {
        return;
    }
    for token in BRACKETS {
        bytes.extend(token);
        each_from(run, bytes, count + 1);
        bytes.truncate(len);
    }
}

/// Each reserved id with its payload, behind a stray, inside a container and before both ends of one, cut at every place.
fn refused_ids(run: &mut Run, rng: &mut Rng) {
    for id in RESERVED {
        let token = saves::token(rng, id, 8);
        cut_anywhere(run, &[&CLOSE, &OPEN, &token[..], &CLOSE, &CLOSE, &OPEN, &token].concat());
    }
}

/// Colours and what is none, in a container.
fn colours(run: &mut Run) {
    for colour in cut_and_changed_colours() {
        one_save(run, &[&CLOSE, &OPEN, &colour[..]].concat());
        one_save(run, &[&OPEN, &colour[..], &CLOSE, &CLOSE].concat());
    }
}

/// Texts of brackets, in inputs too short, just right, and too long.
fn texts(run: &mut Run) {
    for id in TEXTS {
        for len in [0u16, 1, 2, 255, 256, 65_534, 65_535] {
            let text = CLOSE.repeat(usize::from(len) / 2 + 2);
            let bytes = [&OPEN, &id.to_le_bytes(), &len.to_le_bytes(), &text[..]].concat();
            for there in 4..=8 {
                one_save(run, &bytes[..there + usize::from(len)]);
            }
        }
    }
}

/// Strays and open containers at the limits of one and two bytes, in front, in the middle and at the end.
fn many(run: &mut Run) {
    for count in [1, 2, 3, 127, 128, 255, 256, 32_767, 32_768, 65_535, 65_536, 70_000] {
        let (opens, closes) = (OPEN.repeat(count), CLOSE.repeat(count));
        let [value, half] = [&[1, 0x28][..], &[0x0f]];
        for parts in [
            [&closes[..], value, half],
            [value, &closes, value],
            [value, &closes, half],
            [&opens, value, half],
            [&closes, &opens, half],
            [&opens, &closes, &closes],
            [&opens, &closes[2..], half],
            [&closes[2..], &opens, &closes],
        ] {
            one_save(run, &parts.concat());
        }
    }
}

/// Some hundred thousand bytes with strays and open containers, and an end too soon.
fn large(run: &mut Run, rng: &mut Rng, flavour: Flavour) {
    let whole = save(Plan { flavour, size: 100_000, longest_text: 70_000 }, rng);
    let bytes = unbalanced(rng, &whole);
    one_save(run, &bytes);
    one_save(run, &bytes[..bytes.len() - 1 - rng.below(bytes.len() / 2)]);
}

fn one(run: &mut Run, rng: &mut Rng, case: usize) {
    let flavour = Flavour::ALL[case / 4 % Flavour::ALL.len()];
    let size = rng.below(96);
    let whole = save(Plan { flavour, size, longest_text: 12 }, rng);
    let mut bytes = unbalanced(rng, &whole);
    match case % 4 {
        0 => cut_anywhere(run, &bytes),
        1 => run.check(&Settled::new(&whole)),
        2 => one_save(run, &[bytes, bad_colour(rng), whole].concat()),
        _ => {
            flip(rng, &mut bytes);
            one_save(run, &bytes);
            one_save(run, &[whole, random_ids(rng, 32)].concat());
        }
    }
}

/// The save with some ends of containers left out, and Closes put in, often several.
fn unbalanced(rng: &mut Rng, save: &[u8]) -> Vec<u8> {
    let (tokens, _) = original::tokens(save);
    let places: Vec<usize> = tokens.iter().map(|(at, _)| *at).chain([save.len()]).collect();
    let mut out = CLOSE.repeat(rng.below(3));
    for beside in places.windows(2) {
        let token = &save[beside[0]..beside[1]];
        let end = [OPEN, CLOSE].iter().any(|end| token == end);
        if !end || !rng.one_in(4) {
            out.extend(token);
        }
        if rng.one_in(16) {
            out.extend(CLOSE.repeat(1 + rng.below(3)));
        }
    }
    out
}

fn cut_anywhere(run: &mut Run, bytes: &[u8]) {
    for len in 0..=bytes.len() {
        one_save(run, &bytes[..len]);
    }
}

/// Without room, with a byte too few, with just enough, with one and some more, and with twice the save's length, which is
/// always enough; and what was rescued, again.
fn one_save(run: &mut Run, bytes: &[u8]) {
    let whole = Whole::new(Form::Rescued, bytes, 0);
    let need = whole.need();
    for room in rooms(need).chain([need + 9, 2 * bytes.len()]) {
        run.check(&whole.with_room(room));
    }
    run.check(&Settled::new(&rescued(bytes).save));
}

/// With a little more room than is needed.
pub fn with_more_room(run: &mut Run, bytes: &[u8]) {
    let whole = Whole::new(Form::Rescued, bytes, 0);
    run.check(&whole.with_room(whole.need() + 3));
}
