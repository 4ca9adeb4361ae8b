//! Asks the original and the port the same, and says where they differ.

mod arguments;
mod case;
mod contents;
mod dump;
mod keys;
mod lent;
mod listed;
mod offsets;
mod record;
mod rescued;
mod respelled;
mod run;
mod shortest;
mod shrink;
mod spelling;
mod stages;
mod subjects;

use arguments::Arguments;
use run::Run;
use saves::Rng;
use std::process::ExitCode;

fn main() -> ExitCode {
    let arguments = match Arguments::read(std::env::args().skip(1)) {
        Ok(arguments) => arguments,
        Err(usage) => {
            eprintln!("{usage}");
            return ExitCode::from(2);
        }
    };
    if let Some(file) = &arguments.record {
        return record::record(file, arguments.seed);
    }
    if let Some(file) = &arguments.record_runs {
        return record::record_runs(file);
    }
    let mut run = Run::new();
    let mut rng = Rng::new(arguments.seed);
    match (arguments.programs, arguments.entries) {
        (Some(cases), _) => stages::programs(&mut run, &mut rng, cases),
        (None, Some(count)) => stages::many_entries(&mut run, count),
        (None, None) => calls(&mut run, &mut rng, &arguments),
    }
    if run.finish() { ExitCode::SUCCESS } else { ExitCode::FAILURE }
}

fn calls(run: &mut Run, rng: &mut Rng, arguments: &Arguments) {
    println!("seed {}, {} generated saves", arguments.seed, arguments.cases);
    listed::show(run);
    stages::specimens(run);
    stages::all_kinds(run);
    stages::splits(run);
    stages::short_lists(run);
    stages::all_ids(run);
    stages::all_short_inputs(run, arguments.bytes);
    stages::boundary(run, rng);
    stages::generated(run, rng, arguments.cases);
    stages::writing(run, rng);
    stages::fast(run, rng);
    stages::few_tokens(run);
    stages::finding(run, rng, arguments.cases / 4);
    stages::whole(run, rng, arguments.cases);
    stages::sources(run, rng, arguments.cases);
    stages::contents(run, rng, arguments.cases / 4);
    stages::rescuing(run, rng, arguments.cases / 4);
}
