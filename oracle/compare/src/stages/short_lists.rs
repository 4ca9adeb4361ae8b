//! Every function with an answer list that is too short.

use crate::case::Case;
use crate::lent::Lend;
use crate::offsets::{Placed, offsets};
use crate::run::Run;
use crate::subjects::{Count, Fast, Fill, Find, Form, Lex, Origin, Search, Short, Split, Text, Whole, Write, Written};
use protocol::{Call, Spelling, WORDS};

pub fn short_lists(run: &mut Run) {
    let bytes = [0x14, 0, 1, 2, 3, 4, 5, 6, 7, 8];
    for call in Call::PLAIN.iter().copied().chain([Call::ReadBytes(1), Call::SkipValue(0x14)]) {
        for at in [0, 9, 10, 11] {
            each_too_short(run, &Lex::new(&bytes, at, call));
        }
    }
    too_short(run, &Split { bytes: bytes.to_vec(), count: 2 });
    too_short(run, &Text::new(&bytes, 1, 2));
    for at in [0, 4, 11] {
        each_too_short(run, &Find::new(&bytes, at, 0x2801));
    }
    too_short(run, &Count::new(&bytes));
    for room in [0, 5, 60] {
        for spelling in Spelling::ALL {
            too_short(run, &Write::new(spelling, &bytes, 7, &[1, 2, 0, 0, 0], room));
            too_short(run, &Write::new(spelling, &bytes, 7, &[9, 2, 0, 0, 0], room));
            too_short(run, &Write::new(spelling, &bytes, 15, &[], room));
        }
        for form in Form::ALL {
            too_short(run, &Whole::new(form, &bytes, room));
        }
    }
    contents(run);
    too_short(run, &Fast::new(&[9; 8], &[0x14; 16]));
    too_short(run, &Fast::new(&[9; 7], &[0x14; 2]));
}

/// A save and a file of one entry, with and without a list for it, and neither; lists in order and out of it.
fn contents(run: &mut Run) {
    let (save, file) = ([1, 0x28, 1, 0], [1, 0, 0, 0, 8, 0, 0, 0, 0, 0, 0, 0, 4]);
    for bytes in [&save[..], &file, &save[..3]] {
        for origin in Origin::ALL {
            for numbers in [0, 1, 2, 5] {
                too_short(run, &Fill::new(origin, bytes, numbers));
            }
        }
    }
    for list in [&[][..], &[0, 4], &[0, 0], &[0]] {
        for room in [0, 13, 20] {
            too_short(run, &Written::new(list, room));
        }
        for position in [0, 4] {
            too_short(run, &Search::new(list, position));
        }
    }
}

/// At 0, and at the other offsets.
fn each_too_short<C: Placed + Lend>(run: &mut Run, case: &C) {
    too_short(run, case);
    for offset in offsets(case.len()) {
        too_short(run, &case.at_offset(offset));
    }
}

fn too_short<C: Case + Lend>(run: &mut Run, case: &C) {
    for room in 0..WORDS {
        run.check(&Short { case, room });
    }
}
