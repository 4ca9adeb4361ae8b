//! How fast the port reads, skips, normalises, shortens, steps, finds, lists and rescues beside the original, on the same
//! bytes, in turns.

mod arguments;
mod callgrind;
mod clock;
mod measure;
mod search;
mod table;
mod work;

use arguments::{Arguments, Mode};
use std::process::ExitCode;

fn main() -> ExitCode {
    match Arguments::read(std::env::args().skip(1)).and_then(|arguments| run(&arguments)) {
        Ok(()) => ExitCode::SUCCESS,
        Err(message) => {
            eprintln!("{message}");
            ExitCode::FAILURE
        }
    }
}

fn run(arguments: &Arguments) -> Result<(), String> {
    let rounds = arguments.rounds;
    let tables = match arguments.mode {
        Mode::Once(side, work) => {
            work::once(side, work);
            return Ok(());
        }
        Mode::Callgrind => vec![("instructions", callgrind::table()?)],
        Mode::Time => vec![("times", table::times(&measure::all(rounds))), ("search", search::line(rounds))],
    };
    for (name, table) in &tables {
        print!("{table}");
        if let Some(file) = &arguments.write {
            table::write(file, name, table)?;
        }
    }
    Ok(())
}
