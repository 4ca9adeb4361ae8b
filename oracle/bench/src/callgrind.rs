//! Instruction counts: this program again, once for each row and side, under valgrind.

use crate::work::{Side, Work};
use std::fmt::Write;
use std::process::Command;

const HEAD: &str = "| Call | Save | Port, instructions a token | Original, instructions a token | Port / original |
|---|---|---|---|---|
";

pub fn table() -> Result<String, String> {
    let mut table = HEAD.to_string();
    for (number, work) in Work::all().enumerate() {
        let [port, original] = Side::ALL.map(|side| instructions(side, number));
        let (port, original) = (port?, original?);
        let tokens = original::count_tokens(&work.input()).words[1] as f64;
        let [port, original] = [port as f64, original as f64];
        let cells = [
            work.task.name().to_string(),
            work.flavour.name().to_string(),
            format!("{:.1}", port / tokens),
            format!("{:.1}", original / tokens),
            format!("{:.2}", port / original),
        ];
        writeln!(table, "| {} |", cells.join(" | ")).expect("a string takes any text");
    }
    Ok(table)
}

fn instructions(side: Side, number: usize) -> Result<u64, String> {
    let program = std::env::current_exe().map_err(|error| error.to_string())?;
    let output = Command::new("valgrind")
        .args(["--tool=callgrind", "--callgrind-out-file=/dev/null"])
        .args(["--collect-atstart=no", "--toggle-collect=stivlaheim_bench_measured"])
        .arg(program)
        .args(["--once", &format!("{}:{number}", side.name())])
        .output()
        .map_err(|error| format!("valgrind: {error}"))?;
    let text = String::from_utf8_lossy(&output.stderr);
    if !output.status.success() {
        return Err(format!("valgrind: {}:\n{text}", output.status));
    }
    let count = text.lines().find_map(|line| line.split_once("Collected :")?.1.trim().parse().ok());
    count.ok_or_else(|| format!("valgrind gave no count:\n{text}"))
}
