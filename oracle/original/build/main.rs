//! Finds the original files, checks their sums, and tells the crate where each one is.

mod sha256;

use std::env;
use std::fs;
use std::path::{Path, PathBuf};
use std::process::exit;

const SUMS: &str = include_str!("../SUMS");
const ORIGIN: &str = "rakaly/jomini@9fae0ac1dc";
const WITHIN: &str = "/crates/jomini/src/";
const DEFAULT: &str = "../shared/docs/src/crates/jomini/src";
/// Set for a copy that is changed on purpose, to see that `compare` notices.
const UNCHECKED: &str = "JOMINI_UNCHECKED";

fn main() {
    println!("cargo::rerun-if-changed=SUMS");
    println!("cargo::rerun-if-changed=build");
    println!("cargo::rerun-if-env-changed=JOMINI_SRC");
    println!("cargo::rerun-if-env-changed={UNCHECKED}");
    let directory = directory();
    let faults: Vec<String> = sums().filter_map(|(sum, file)| place(&directory, sum, file).err()).collect();
    if faults.is_empty() {
        let changed = if env::var_os(UNCHECKED).is_some() { " (perhaps changed)" } else { "" };
        println!("cargo::rustc-env=JOMINI_ORIGIN={ORIGIN}{changed}");
        return;
    }
    eprintln!("The original's files in {}:", directory.display());
    for fault in &faults {
        eprintln!("  {fault}");
    }
    eprintln!("Set JOMINI_SRC to crates/jomini/src of a checkout of rakaly/jomini at 9fae0ac1dc.");
    exit(1);
}

/// A relative JOMINI_SRC starts at the project's root.
fn directory() -> PathBuf {
    let root = Path::new(env!("CARGO_MANIFEST_DIR")).ancestors().nth(2).expect("a directory in the project's oracle/");
    let directory = root.join(env::var("JOMINI_SRC").unwrap_or_else(|_| DEFAULT.to_string()));
    directory.canonicalize().unwrap_or(directory)
}

fn sums() -> impl Iterator<Item = (&'static str, &'static str)> {
    let lines = SUMS.lines().filter(|line| !line.starts_with('#'));
    lines.map(|line| {
        let (sum, file) = line.split_once("  ").expect("SUMS: sum, two spaces, file");
        let within = file.strip_prefix(ORIGIN).and_then(|rest| rest.strip_prefix(WITHIN));
        (sum, within.expect("SUMS: a file of the one commit"))
    })
}

fn place(directory: &Path, sum: &str, file: &str) -> Result<(), String> {
    let path = directory.join(file);
    println!("cargo::rerun-if-changed={}", path.display());
    let text = fs::read_to_string(&path).map_err(|error| format!("{file}: missing ({error})"))?;
    let found = sha256::hex(before_tests(&text).as_bytes());
    if found != sum && env::var_os(UNCHECKED).is_none() {
        return Err(format!("{file}: differs (its sum is {found}, SUMS has {sum})"));
    }
    println!("cargo::rustc-env={}={}", variable(file), path.display());
    Ok(())
}

fn before_tests(text: &str) -> &str {
    let end = text.find("\n#[cfg(test)]").map_or(text.len(), |newline| newline + 1);
    &text[..end]
}

/// `binary/lexer.rs` as JOMINI_BINARY_LEXER.
fn variable(file: &str) -> String {
    let name = file.trim_end_matches(".rs").replace('/', "_").to_uppercase();
    format!("JOMINI_{name}")
}
