//! A sample of the original's answers, for the port to be held to where the original is not at hand.

mod cases;
mod contents;
mod entry;
mod finds;
mod offsets;
mod outputs;
mod runs;
mod sample;
mod sources;

pub use entry::{Entry, Recorded};

use entry::CALLS;
use sample::Sample;
use std::fs;
use std::path::Path;
use std::process::ExitCode;

pub fn record(file: &Path, seed: u64) -> ExitCode {
    let mut sample = Sample::default();
    cases::all(&mut sample, seed);
    outputs::all(&mut sample, seed);
    sources::all(&mut sample, seed);
    finds::all(&mut sample, seed);
    contents::all(&mut sample, seed);
    offsets::all(&mut sample);
    sample.print_counts();
    write(file, header(seed) + &sample.lines())
}

/// What the programs print.
pub fn record_runs(file: &Path) -> ExitCode {
    write(file, runs::runs())
}

fn write(file: &Path, text: String) -> ExitCode {
    match fs::write(file, text) {
        Ok(()) => ExitCode::SUCCESS,
        Err(error) => {
            eprintln!("{}: {error}", file.display());
            ExitCode::FAILURE
        }
    }
}

/// How the file was made, and what its columns are.
fn header(seed: u64) -> String {
    let origin = original::ORIGIN;
    let calls: Vec<String> = CALLS.iter().enumerate().map(|(at, name)| format!("{} {name}", at + 1)).collect();
    let calls = calls.join(", ");
    format!(
        "\
# Answers of {origin}, written by: oracle/run --seed {seed} --record FILE
# The original answered; the port was not asked. Where it cannot be asked, the answer is FORMAT.md's: it has no call 4, no place past its
# input (code 7), no refusal of a token that would not read back (32, 33) or for want of room (4), no words that are no token (101), and
# no step over less than 16 bytes (call 32). Calls 30 and 31 are made from its tokens, in its own spelling and in FORMAT.md's words, and
# calls 49 and 50 from its tokens and the shortest bytes that it reads as each of them. Calls 51, 52 and 57 are made from its tokens. Calls 53
# to 55 ask about no save, and their answers are FORMAT.md's. What a refused read misses (W2 where CODE is 1, from call 5 on) is none of the
# original's words: it is made from the bytes, in FORMAT.md's. Nor has it an offset: the positions at one (W1 where CODE is 1 or 2, and of
# calls 51 and 56) are its own with the offset added, and an offset that is too large (7) is FORMAT.md's.
# It has no state whose numbers do not fit (7) or whose sixth word is over 1 (101): of calls 33 to 48 these answers are FORMAT.md's.
# CALL AT OFFSET ARG CODE W0 W1 W2 W3 W4 W5 W6 W7 INPUT, and for the calls from 29 to 50 and 52, 54, 55 and 57 INPUT/OUTPUT
# AT: the cursor, a text's start, a position (call 53), or how many bytes are lent, of calls 52 and 55 how many numbers. OFFSET: where the
# input begins in the file. ARG: an id, a count, a text's length, or a kind. Each is 0 where the call takes none.
# CODE: what the C function returns. W0 to W7: the words that it puts into the lent list, 0 where it is lent none, and the largest number
# where it leaves them (101).
# INPUT: for calls 29 and 49 the token's five words, eight bytes each, and the bytes; for call 32 the held bytes and the window; for calls
# 33 to 48 the buffer, the state's six words, in one byte how many entries the schedule has, the entries, four bytes each, and the supply;
# for calls 53 and 54 the list's numbers, four bytes each; for call 55 the file.
# OUTPUT: what the call leaves at the front of the lent bytes; those after it are as they were. For calls 33 to 48 all of the buffer, and
# the state's words. For calls 52 and 55 the numbers at the front of the lent list, four bytes each; those after them are as they were.
# INPUT and OUTPUT are lower-case hex, - for no bytes. All else is decimal.
# Calls: {calls}
"
    )
}
