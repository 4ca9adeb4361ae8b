//! Well-formed saves.

use crate::ids::{BOOL, CLOSE, COMPACT, EQUAL, F32, I32, OPEN, QUOTED, RGB, U32, UNQUOTED};
use crate::{Payload, RESERVED, Rng, payload};

#[derive(Clone, Copy, Debug, PartialEq, Eq)]
pub enum Flavour {
    ShortNumbers,
    Compact,
    Lookups,
    LongStrings,
    DeepNesting,
    Colours,
    Reserved,
    Mixture,
}

impl Flavour {
    pub const ALL: [Flavour; 8] = [
        Flavour::ShortNumbers,
        Flavour::Compact,
        Flavour::Lookups,
        Flavour::LongStrings,
        Flavour::DeepNesting,
        Flavour::Colours,
        Flavour::Reserved,
        Flavour::Mixture,
    ];

    pub fn name(self) -> &'static str {
        match self {
            Flavour::ShortNumbers => "short numbers",
            Flavour::Compact => "compact",
            Flavour::Lookups => "lookups",
            Flavour::LongStrings => "long strings",
            Flavour::DeepNesting => "deep nesting",
            Flavour::Colours => "colours",
            Flavour::Reserved => "reserved",
            Flavour::Mixture => "a mixture",
        }
    }
}

#[derive(Clone, Copy, Debug)]
pub struct Plan {
    pub flavour: Flavour,
    /// About how many bytes.
    pub size: usize,
    pub longest_text: usize,
}

/// A balanced save in which every token reads.
pub fn save(plan: Plan, rng: &mut Rng) -> Vec<u8> {
    let mut out = Vec::new();
    let mut depth = 0usize;
    while out.len() < plan.size {
        entry(plan, rng, &mut out, &mut depth);
    }
    for _ in 0..depth {
        put_id(&mut out, CLOSE);
    }
    out
}

/// An entry, or an end of a container.
fn entry(plan: Plan, rng: &mut Rng, out: &mut Vec<u8>, depth: &mut usize) {
    let (opens, closes) = match plan.flavour {
        Flavour::DeepNesting => (2, 4),
        _ => (12, 10),
    };
    if *depth > 0 && rng.one_in(closes) {
        put_id(out, CLOSE);
        *depth -= 1;
        return;
    }
    if rng.one_in(2) {
        put_id(out, plain_id(rng));
        put_id(out, EQUAL);
    }
    if rng.one_in(opens) {
        put_id(out, OPEN);
        *depth += 1;
    } else {
        value(plan, rng, out);
    }
}

fn value(plan: Plan, rng: &mut Rng, out: &mut Vec<u8>) {
    let flavour = match plan.flavour {
        Flavour::Mixture => rng.pick(&Flavour::ALL),
        flavour => flavour,
    };
    let id = match flavour {
        Flavour::ShortNumbers => rng.pick(&[U32, I32, BOOL, F32]),
        Flavour::Compact => *COMPACT.start() + rng.below(COMPACT.len()) as u16,
        Flavour::Lookups => lookup(rng),
        Flavour::LongStrings => rng.pick(&[QUOTED, UNQUOTED]),
        Flavour::Colours => RGB,
        Flavour::DeepNesting => [plain_id(rng), U32, BOOL][rng.below(3)],
        Flavour::Reserved | Flavour::Mixture => leaf(rng),
    };
    put_token(plan.longest_text, rng, id, out);
}

/// Any reserved id but Open and Close, which the entries put where they balance.
fn leaf(rng: &mut Rng) -> u16 {
    loop {
        let id = rng.pick(&RESERVED);
        if id != OPEN && id != CLOSE {
            return id;
        }
    }
}

fn lookup(rng: &mut Rng) -> u16 {
    let first = rng.pick(&[0x0d3e, 0x0d43, 0x0d5a]);
    first + rng.below(4) as u16
}

/// Often beside a reserved one.
fn plain_id(rng: &mut Rng) -> u16 {
    loop {
        let near = rng.pick(&RESERVED).wrapping_add(rng.below(5) as u16).wrapping_sub(2);
        let id = if rng.one_in(4) { near } else { rng.number() as u16 };
        if !RESERVED.contains(&id) {
            return id;
        }
    }
}

fn put_id(out: &mut Vec<u8>, id: u16) {
    out.extend(id.to_le_bytes());
}

/// One whole token.
pub fn token(rng: &mut Rng, id: u16, longest_text: usize) -> Vec<u8> {
    let mut out = Vec::new();
    put_token(longest_text, rng, id, &mut out);
    out
}

fn put_token(longest_text: usize, rng: &mut Rng, id: u16, out: &mut Vec<u8>) {
    put_id(out, id);
    match payload(id) {
        Payload::Bytes(count) => out.extend(&rng.any_size().to_le_bytes()[..count]),
        Payload::Text => put_text(longest_text, rng, out),
        Payload::Colour => put_colour(rng, out),
    }
}

fn put_text(longest_text: usize, rng: &mut Rng, out: &mut Vec<u8>) {
    let length = if rng.one_in(8) { 0 } else { rng.below(longest_text.min(0xffff) + 1) };
    out.extend((length as u16).to_le_bytes());
    rng.fill(out, length);
}

/// What follows a colour's id.
pub(crate) fn put_colour(rng: &mut Rng, out: &mut Vec<u8>) {
    put_id(out, OPEN);
    for _ in 0..3 + rng.below(2) {
        put_id(out, U32);
        out.extend(&rng.any_size().to_le_bytes()[..4]);
    }
    put_id(out, CLOSE);
}
