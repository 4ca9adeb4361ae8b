//! Calls that are lent bytes: what they leave there is recorded too.

use super::entry::Entry;
use super::sample::{LONGEST, LONGEST_OUTPUT, Sample};
use crate::case::Case;
use crate::lent::SeenLent;
use crate::spelling::spell;
use crate::stages::{FEW_VALUES, of_number, specimen_requests};
use crate::subjects::{Fast, Form, Whole, Write};
use protocol::{Answer, Colour, Request, Spelling, Token, WORDS, code};
use saves::ids::TEXTS;
use saves::{Flavour, Plan, RESERVED, Rng, bad_colour, bare, flip, narrow, random_bytes, random_ids, save, token};

/// The ends of one to eight bytes, of signed numbers, of lookups that can be written, and of compact numbers.
const ENDS: [u64; 16] = [
    0,
    1,
    0xff,
    0x100,
    0xff_ffff,
    0x100_0000,
    0x7fff_ffff,
    0x8000_0000,
    0xffff_ffff,
    (1 << 56) - 1,
    1 << 56,
    1 << 63,
    (1 << 63) + 1,
    u64::MAX << 56,
    (u64::MAX << 56) + 1,
    u64::MAX,
];

pub fn all(sample: &mut Sample, seed: u64) {
    let mut rng = Rng::new(seed);
    tokens(sample);
    no_tokens(sample);
    places(sample);
    specimens(sample);
    for flavour in Flavour::ALL {
        saves(sample, &mut rng, flavour);
    }
    noise(sample, &mut rng);
    steps(sample, &mut rng);
    for flavour in Flavour::ALL {
        let bytes = save(Plan { flavour, size: 40, longest_text: 12 }, &mut rng);
        whole(sample, &bare(&bytes, &mut rng));
    }
    clipped(sample, &mut rng);
}

/// Every kind with the ends of its values, and each reserved id as a plain one.
fn tokens(sample: &mut Sample) {
    let mut tokens = FEW_VALUES.to_vec();
    for number in ENDS {
        tokens.extend(of_number(number));
        let low = number as u32;
        tokens.extend([None, Some(low)].map(|a| Token::Rgb(Colour { r: low, g: 2, b: (number >> 32) as u32, a })));
    }
    for length in [0, 1, 3, 200] {
        let text: Vec<u8> = (0..length).map(|at| at ^ 0x61).collect();
        tokens.extend([Token::Quoted(text.clone()), Token::Unquoted(text)]);
    }
    for token in tokens {
        let (kind, words) = token.words();
        for spelling in Spelling::ALL {
            let spelled = spell(spelling, &token).unwrap_or_else(|_| original::spelling(&token));
            for room in rooms(spelled.len()) {
                write_so(sample, spelling, token.text(), kind, words, room);
            }
        }
    }
    for id in RESERVED {
        write(sample, &[], 14, [id.into(), 0, 0, 0, 0], 16);
    }
}

/// No kind, and words that are no value of their kind.
fn no_tokens(sample: &mut Sample) {
    for kind in [15, 0x0100_0003, u32::MAX] {
        write(sample, &[1, 2], kind, [1; 5], 16);
    }
    for (kind, word) in [(3, 1 << 32), (5, 1 << 31), (6, 2), (9, 1 << 32), (11, 1 << 32), (13, 1 << 32), (14, 1 << 16)]
    {
        write(sample, &[], kind, [word, 0, 0, 0, 0], 40);
    }
    write(sample, &[], 11, [1, 2, 3, 2, 0], 40);
    write(sample, &[], 11, [1, 2, 3, 1, 1 << 32], 40);
}

/// Texts whose end is at the end of the bytes or of all numbers.
fn places(sample: &mut Sample) {
    let ends = [0, 1, 8, 9, 10, u64::MAX - 8, u64::MAX];
    for start in ends {
        for len in ends {
            write(sample, &[7, 1, 2, 3, 4, 5, 6, 7, 8], 7, [start, len, 0, 0, 0], 13);
        }
    }
}

fn specimens(sample: &mut Sample) {
    for (_, request) in specimen_requests() {
        match request {
            Request::Save { bytes, .. } | Request::Dump { bytes } | Request::Lex { bytes, .. } => whole(sample, &bytes),
            Request::Rescue { bytes, .. } => made(sample, Form::Rescued, &bytes),
            _ => {}
        }
    }
}

/// Whole, without wide lookups, cut somewhere, and damaged.
fn saves(sample: &mut Sample, rng: &mut Rng, flavour: Flavour) {
    for size in [12, 40, 80] {
        let mut bytes = save(Plan { flavour, size, longest_text: 12 }, rng);
        whole(sample, &bytes);
        narrow(&mut bytes);
        whole(sample, &bytes);
        whole(sample, &bytes[..rng.below(bytes.len())]);
        whole(sample, &[&[4, 0].repeat(rng.below(3)), &bytes[..]].concat());
        flip(rng, &mut bytes);
        whole(sample, &bytes);
    }
}

fn noise(sample: &mut Sample, rng: &mut Rng) {
    for _ in 0..8 {
        whole(sample, &random_bytes(rng, 32));
        whole(sample, &random_ids(rng, 32));
        whole(sample, &bad_colour(rng));
    }
}

/// Strays in front, between and behind, one and several; containers left open, up to as many as are recorded; each with an
/// end in the middle of a token, and a save cut in every other place.
fn clipped(sample: &mut Sample, rng: &mut Rng) {
    let [open, close, value] = [&[3, 0][..], &[4, 0], &[0x3e, 0x0d, 4, 0]];
    let mut saves = vec![
        [close, open, value].concat(),
        [close, close, value, close, open, close, close].concat(),
        [open, value, open, close, close, close, open].concat(),
        [&open.repeat(60)[..], &close.repeat(61), open].concat(),
        [&close.repeat(60)[..], &open.repeat(60)].concat(),
    ];
    for end in [&[4][..], &[0x0f, 0, 9, 0, 4, 0], &[0x43, 2, 4, 0]] {
        let ended: Vec<Vec<u8>> = saves[..3].iter().map(|save| [save, end].concat()).collect();
        saves.extend(ended);
    }
    let save = save(Plan { flavour: Flavour::Mixture, size: 60, longest_text: 8 }, rng);
    let cut = (1..save.len().min(80)).step_by(2).map(|len| [close, open, &save[..len]].concat());
    for bytes in saves.into_iter().chain(cut) {
        made(sample, Form::Rescued, &bytes);
    }
}

/// Every reserved id and some others with windows of few and of enough bytes, texts about the window's end, and held
/// bytes that are not eight.
fn steps(sample: &mut Sample, rng: &mut Rng) {
    for id in RESERVED.into_iter().chain([0x0000, 0x0002, 0x0d56, 0x2801, 0xffff]) {
        let window = [token(rng, id, 8), vec![0x5a; 16]].concat();
        for len in [2, 15, 16, window.len()] {
            step(sample, &rng.number().to_le_bytes(), &window[..len]);
        }
    }
    for id in TEXTS {
        for len in [0u16, 11, 12, 13, 0x0100, 0xffff] {
            let window = [&id.to_le_bytes()[..], &len.to_le_bytes(), &[0x74; 12]].concat();
            step(sample, &rng.number().to_le_bytes(), &window);
        }
    }
    for count in [0, 7, 9] {
        step(sample, &vec![7; count], &[1; 16]);
    }
}

/// Both spellings, the dump and what is rescued, at every room that makes a difference.
fn whole(sample: &mut Sample, bytes: &[u8]) {
    if bytes.len() > LONGEST {
        return;
    }
    for form in Form::ALL {
        made(sample, form, bytes);
    }
}

fn made(sample: &mut Sample, form: Form, bytes: &[u8]) {
    let whole = Whole::new(form, bytes, 0);
    for room in rooms(whole.need()) {
        add(sample, form.name(), [room, 0], &whole.with_room(room).expected(), bytes);
    }
}

/// By both writers.
fn write(sample: &mut Sample, bytes: &[u8], kind: u32, words: [u64; 5], room: usize) {
    for spelling in Spelling::ALL {
        write_so(sample, spelling, bytes, kind, words, room);
    }
}

fn write_so(sample: &mut Sample, spelling: Spelling, bytes: &[u8], kind: u32, words: [u64; 5], room: usize) {
    let case = Write::new(spelling, bytes, kind, &words, room);
    let input = [words.map(u64::to_le_bytes).as_flattened(), bytes].concat();
    add(sample, case.name(), [room, kind as usize], &case.expected(), &input);
}

fn step(sample: &mut Sample, held: &[u8], window: &[u8]) {
    let seen = Fast::new(held, window).expected();
    let answer = answer(&seen);
    let bytes = [held, window].concat();
    let entry = Entry { call: "next_token_fast", at: held.len(), offset: 0, arg: 0, answer, bytes: &bytes };
    sample.add_output(&entry, seen.lent());
}

/// A byte too few, just enough, and one more.
fn rooms(need: usize) -> impl Iterator<Item = usize> {
    [need.checked_sub(1), Some(need), Some(need + 1)].into_iter().flatten().filter(|room| *room <= LONGEST_OUTPUT)
}

fn add(sample: &mut Sample, call: &'static str, [at, arg]: [usize; 2], seen: &SeenLent, bytes: &[u8]) {
    let answer = answer(seen);
    let written = if answer.code == code::ANSWERED { answer.words[0] as usize } else { 0 };
    sample.add_output(&Entry { call, at, offset: 0, arg, answer, bytes }, &seen.lent()[..written]);
}

/// Words that are left alone are the largest number, which the replay lends.
fn answer(seen: &SeenLent) -> Answer {
    let answer = seen.seen.answer();
    if answer.code == code::BAD_ARGUMENT { Answer { words: [u64::MAX; WORDS], ..answer } } else { answer }
}
