//! The programs, on saves of all sizes that they take and some that they do not.

use crate::run::Run;
use crate::subjects::{Printed, Program};
use saves::{Flavour, Plan, Rng, bad_colour, flip, narrow, random_bytes, random_ids, save_of_a_build};
use std::borrow::Cow;
use std::env;
use std::path::{Path, PathBuf};

/// Where a program is: in the directory that STIVLAHEIM_BIN names, of which a relative one starts at the project's root, or where `rt` leaves it.
fn place(program: Program) -> PathBuf {
    let root = Path::new(env!("CARGO_MANIFEST_DIR")).ancestors().nth(2).expect("a directory in the project's oracle/");
    let name = program.name();
    let directory = env::var("STIVLAHEIM_BIN").unwrap_or_else(|_| format!("crates/{name}/out"));
    root.join(directory).join(name)
}

pub fn programs(run: &mut Run, rng: &mut Rng, cases: usize) {
    let places = Program::ALL.map(place);
    let both = |run: &mut Run, bytes: &[u8], pieces| {
        for (program, place) in Program::ALL.into_iter().zip(&places) {
            run.check(&Printed { program, place, bytes: Cow::Borrowed(bytes), pieces });
        }
    };
    for bytes in limits() {
        both(run, &bytes, 1);
        both(run, &bytes, 3);
    }
    for case in 0..cases {
        if case % 64 == 0 {
            run.progress("programs", case, cases);
        }
        let pieces = if case % 16 == 0 { 1 + rng.below(4) } else { 1 };
        both(run, &one(rng, case), pieces);
    }
}

/// No bytes; as many as a program takes, one fewer and one more, in tokens of two bytes; and more than a pipe holds.
fn limits() -> Vec<Vec<u8>> {
    let sizes =
        Program::ALL.iter().flat_map(|program| [program.longest() - 1, program.longest(), program.longest() + 1]);
    let tokens = [[0x47, 0x0d], [0x03, 0x00], [0x04, 0x00], [0x42, 0x0d], [0x01, 0x00], [0xff, 0xff]];
    sizes
        .chain([0, 1, 2, 100_000])
        .flat_map(|size| tokens.map(|token| token.iter().copied().cycle().take(size).collect()))
        .collect()
}

fn one(rng: &mut Rng, case: usize) -> Vec<u8> {
    let flavour = Flavour::ALL[case / 8 % Flavour::ALL.len()];
    let size = match case % 8 {
        5 => return [small(rng, flavour), bad_colour(rng)].concat(),
        6 => return random_bytes(rng, 64),
        7 => return random_ids(rng, 64),
        0 => 9_000,
        1 => 36_000,
        _ => 400,
    };
    let mut bytes = save_of_a_build(Plan { flavour, size: rng.below(size), longest_text: 40 }, rng);
    if !rng.one_in(4) {
        narrow(&mut bytes);
    }
    if case % 8 > 2 {
        flip(rng, &mut bytes);
    }
    bytes
}

fn small(rng: &mut Rng, flavour: Flavour) -> Vec<u8> {
    let closes = [4, 0].repeat(rng.below(3));
    [closes, save_of_a_build(Plan { flavour, size: rng.below(64), longest_text: 12 }, rng)].concat()
}
