//! The command line.

use std::path::PathBuf;

const USAGE: &str =
    "compare [--cases N] [--seed S] [--bytes N] [--programs N] [--entries N] [--record FILE] [--record-runs FILE]
  --cases N           generated saves (default 10000)
  --seed S            what they are made from (default 1)
  --bytes N           all inputs of up to N bytes (default 3); of three bytes, at least every call at their start
  --programs N        only run the programs dump and normal, on N generated saves
  --entries N         only write a table of contents of N entries, eight bytes of memory each, and of one fewer
  --record FILE       only write a sample of the original's answers to FILE
  --record-runs FILE  only write to FILE what the programs should print, by the original's tokens";

pub struct Arguments {
    pub cases: usize,
    pub seed: u64,
    pub bytes: usize,
    pub programs: Option<usize>,
    pub entries: Option<usize>,
    pub record: Option<PathBuf>,
    pub record_runs: Option<PathBuf>,
}

impl Arguments {
    pub fn read(mut words: impl Iterator<Item = String>) -> Result<Arguments, &'static str> {
        let mut arguments = Arguments {
            cases: 10_000,
            seed: 1,
            bytes: 3,
            programs: None,
            entries: None,
            record: None,
            record_runs: None,
        };
        while let Some(word) = words.next() {
            let value = words.next().ok_or(USAGE)?;
            match word.as_str() {
                "--cases" => arguments.cases = value.parse().map_err(|_| USAGE)?,
                "--seed" => arguments.seed = value.parse().map_err(|_| USAGE)?,
                "--bytes" => arguments.bytes = value.parse().map_err(|_| USAGE)?,
                "--programs" => arguments.programs = Some(value.parse().map_err(|_| USAGE)?),
                "--entries" => arguments.entries = Some(value.parse().map_err(|_| USAGE)?),
                "--record" => arguments.record = Some(value.into()),
                "--record-runs" => arguments.record_runs = Some(value.into()),
                _ => return Err(USAGE),
            }
        }
        Ok(arguments)
    }
}
