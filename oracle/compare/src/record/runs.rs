//! What the programs print for some inputs, for a script to hold them to where the original is not at hand.

#[path = "../../../original/build/sha256.rs"]
mod sha256;

use crate::subjects::Program;
use protocol::{hex, unhex};
use std::fs;

/// In how many pieces an input comes, and the input; one a line, in the words of `header`.
const INPUTS: &str = include_str!("runs.txt");
const ROOT: &str = concat!(env!("CARGO_MANIFEST_DIR"), "/../..");
/// The longest output that is written down.
const LONGEST: usize = 4000;

/// Each input's line with the outputs, and at the end how many there are.
pub fn runs() -> String {
    let mut lines = String::new();
    let mut count = 0;
    for line in INPUTS.lines() {
        if line.starts_with('#') {
            lines += &format!("{line}\n");
            continue;
        }
        let (_, input) = line.split_once(' ').expect("pieces, a space and an input");
        for program in Program::ALL {
            lines += &format!("{} {line} {}\n", program.name(), expected(program, input));
            count += 1;
        }
    }
    format!("{}{lines}runs {count}\n", header())
}

fn expected(program: Program, input: &str) -> String {
    if input.ends_with('/') {
        return "errors cannot read\\n".to_string();
    }
    written(&program.prints(&bytes(input)))
}

fn bytes(input: &str) -> Vec<u8> {
    if input.contains('/') {
        return fs::read(format!("{ROOT}/{input}")).unwrap_or_else(|error| panic!("{input}: {error}"));
    }
    input.split('+').flat_map(part).collect()
}

fn part(part: &str) -> Vec<u8> {
    let (bytes, count) = part.split_once('*').unwrap_or((part, "1"));
    let bytes = unhex(bytes).unwrap_or_else(|| panic!("{bytes} is no hex"));
    bytes.repeat(count.parse().unwrap_or_else(|_| panic!("{count} is no count")))
}

fn written(output: &[u8]) -> String {
    if output.len() > LONGEST {
        return format!("sha256 {}", sha256::hex(output));
    }
    match str::from_utf8(output) {
        Ok(text) if text.ends_with('\n') && text.lines().all(plain) => format!("text {}", text.replace('\n', "\\n")),
        _ => format!("hex {}", hex(output)),
    }
}

/// It has no byte that a shell would take for something else.
fn plain(line: &str) -> bool {
    line.bytes().all(|byte| matches!(byte, b'a'..=b'z' | b'0'..=b'9' | b' ' | b'-'))
}

/// How the file was made, and what its columns are.
fn header() -> String {
    let origin = original::ORIGIN;
    format!(
        "\
# What the programs print, by the tokens of {origin}, written by: oracle/run --record-runs FILE
# The original read the inputs and spelled the tokens; the port was not asked. The dump's words, the lines of refusals and the limits are
# FORMAT.md's.
# PROGRAM PIECES INPUT FORM OUTPUT
# PIECES: in how many the input comes, with a pause between them.
# INPUT: lower-case hex, - for no bytes, in parts with + between them, BYTES*COUNT for bytes repeated; or a path in this repository.
# FORM OUTPUT: text with \\n for the end of a line, hex like INPUT's, or the SHA-256 sum of what is long; errors: nothing is printed, and
# this is the text on standard error, which is empty otherwise.
# The last line says how many runs there are.
"
    )
}
