//! The tables, and their place in a page.

use crate::measure::Row;
use std::fmt::Write;
use std::fs;
use std::path::Path;

const HEAD: &str = "| Call | Save | Bytes | Tokens | Port, Mtokens/s | Port, MB/s | Original, Mtokens/s | Original, MB/s | Port time / original time: median (least to most) |
|---|---|---|---|---|---|---|---|---|
";

pub fn times(rows: &[Row]) -> String {
    let mut table = HEAD.to_string();
    for row in rows {
        let (port, original) = (median(&row.port), median(&row.original));
        let rate = |amount: f64, time: f64| format!("{:.0}", amount / time / 1e6);
        let (tokens, bytes) = (row.tokens as f64, row.bytes as f64);
        let cells = [
            row.work.task.name().to_string(),
            row.work.flavour.name().to_string(),
            row.bytes.to_string(),
            row.tokens.to_string(),
            rate(tokens, port),
            rate(bytes, port),
            rate(tokens, original),
            rate(bytes, original),
            ratios(row),
        ];
        writeln!(table, "| {} |", cells.join(" | ")).expect("a string takes any text");
    }
    table
}

/// Of the times of the same round.
fn ratios(row: &Row) -> String {
    let ratios: Vec<f64> = row.port.iter().zip(&row.original).map(|(port, original)| port / original).collect();
    let [least, most] = ends(&ratios);
    format!("{:.2} ({least:.2} to {most:.2})", median(&ratios))
}

/// The least and the most.
pub fn ends(numbers: &[f64]) -> [f64; 2] {
    [numbers.iter().copied().fold(f64::INFINITY, f64::min), numbers.iter().copied().fold(0.0, f64::max)]
}

pub fn median(numbers: &[f64]) -> f64 {
    let mut sorted = numbers.to_vec();
    sorted.sort_by(f64::total_cmp);
    let middle = sorted.len() / 2;
    if sorted.len().is_multiple_of(2) { (sorted[middle - 1] + sorted[middle]) / 2.0 } else { sorted[middle] }
}

/// Replaces what stands between the two marks of this name in the page.
pub fn write(file: &Path, name: &str, table: &str) -> Result<(), String> {
    let (from, to) = (&*format!("<!-- {name} -->"), &*format!("<!-- /{name} -->"));
    let fault = |what: String| format!("{}: {what}", file.display());
    let page = fs::read_to_string(file).map_err(|error| fault(error.to_string()))?;
    let parts = page.split_once(from).and_then(|(before, rest)| Some((before, rest.split_once(to)?.1)));
    let (before, after) = parts.ok_or_else(|| fault(format!("has no {from} followed by {to}")))?;
    fs::write(file, format!("{before}{from}\n{table}{to}{after}")).map_err(|error| fault(error.to_string()))
}
