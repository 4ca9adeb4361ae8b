//! Inputs that begin at an offset: the calls from cursors where they answer, where they are refused, at the end and past
//! it.

use super::finds::{BRACKETS, KEYS};
use super::sample::Sample;
use crate::offsets::{Placed, offsets};
use crate::record::Recorded;
use crate::subjects::{Find, Lex};
use protocol::Call;
use saves::ids::{OPEN, RGB, U32};

/// A text, a number in a container, and a text that is cut short, from 16 on.
const TEXTS: [u8; 21] = [0x0f, 0, 2, 0, 0x61, 0x62, 3, 0, 0x14, 0, 1, 0, 0, 0, 4, 0, 0x17, 0, 9, 0, 0x63];

/// A colour without its bracket.
const COLOUR: [u8; 24] = [0x43, 2, 4, 0, 0x14, 0, 1, 0, 0, 0, 0x14, 0, 2, 0, 0, 0, 0x14, 0, 3, 0, 0, 0, 4, 0];

pub fn all(sample: &mut Sample) {
    let calls = [Call::ReadBytes(2), Call::ReadBytes(usize::MAX), Call::SkipValue(OPEN), Call::SkipValue(U32)];
    for call in Call::PLAIN.iter().copied().chain(calls) {
        for at in [0, 8, 16, 21, 22] {
            at_offsets(sample, &Lex::new(&TEXTS, at, call));
        }
    }
    for call in [Call::ReadToken, Call::NextToken, Call::PeekToken, Call::SkipContainer] {
        at_offsets(sample, &Lex::new(&COLOUR, 0, call));
    }
    for call in [Call::ReadRgb, Call::SkipValue(RGB)] {
        at_offsets(sample, &Lex::new(&COLOUR, 2, call));
    }
    at_offsets(sample, &Find::new(&COLOUR, 0, 0x2801));
    no_bytes(sample);
    keys(sample);
}

/// Every offset fits.
fn no_bytes(sample: &mut Sample) {
    for call in [Call::ReadToken, Call::NextToken, Call::PeekToken, Call::Remainder, Call::Position] {
        for at in [0, 1] {
            at_offsets(sample, &Lex::new(&[], at, call));
        }
    }
}

/// Found, none, and refused.
fn keys(sample: &mut Sample) {
    for bytes in [&KEYS[..], &KEYS[..20], &BRACKETS] {
        for at in [0, 6, bytes.len(), bytes.len() + 1] {
            for id in [0x2801, 0x2802, 0x2803] {
                at_offsets(sample, &Find::new(bytes, at, id));
            }
        }
    }
}

/// A small one, the largest that fits, and one more.
fn at_offsets<C: Placed + Recorded>(sample: &mut Sample, case: &C) {
    for offset in offsets(case.len()).take(3) {
        sample.add(&case.at_offset(offset));
    }
}
