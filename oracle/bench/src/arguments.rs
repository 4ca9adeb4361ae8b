//! The command line.

use crate::work::{Side, Work};
use std::path::PathBuf;

const USAGE: &str = "bench [--rounds N] [--write FILE] [--callgrind]
  --rounds N    rounds, of which each measures every row on both sides (default 15)
  --callgrind   counts instructions instead (needs valgrind)
  --write FILE  replaces the table between <!-- times --> and <!-- /times --> in FILE and the line between <!-- search -->
                and <!-- /search -->, or the table between <!-- instructions --> and <!-- /instructions -->";

pub enum Mode {
    Time,
    Callgrind,
    /// What `--callgrind` starts: one side's work, once.
    Once(Side, Work),
}

pub struct Arguments {
    pub mode: Mode,
    pub rounds: usize,
    pub write: Option<PathBuf>,
}

impl Arguments {
    pub fn read(mut words: impl Iterator<Item = String>) -> Result<Arguments, String> {
        let mut arguments = Arguments { mode: Mode::Time, rounds: 15, write: None };
        while let Some(word) = words.next() {
            if word == "--callgrind" {
                arguments.mode = Mode::Callgrind;
                continue;
            }
            let value = words.next().ok_or(USAGE)?;
            match word.as_str() {
                "--rounds" => arguments.rounds = value.parse().ok().filter(|rounds| *rounds > 0).ok_or(USAGE)?,
                "--write" => arguments.write = Some(value.into()),
                "--once" => {
                    let (side, work) = once(&value).ok_or(USAGE)?;
                    arguments.mode = Mode::Once(side, work);
                }
                _ => return Err(USAGE.to_string()),
            }
        }
        Ok(arguments)
    }
}

/// A side and the number of a work.
fn once(value: &str) -> Option<(Side, Work)> {
    let (side, number) = value.split_once(':')?;
    let side = Side::ALL.into_iter().find(|known| known.name() == side)?;
    let work = Work::all().nth(number.parse().ok()?)?;
    Some((side, work))
}
