//! How long a search takes in a long table of contents.

use crate::measure::time_of;
use crate::table::{ends, median};
use protocol::Answer;
use std::hint::black_box;

const ENTRIES: u32 = 1_000_000;
/// Of an entry.
const BYTES: u32 = 16;

/// For positions at the start, in the middle and at the end, and where there is none.
pub fn line(rounds: usize) -> String {
    let list: Vec<u32> = (0..ENTRIES).flat_map(|at| [at * BYTES, (at + 1) * BYTES]).collect();
    let times = [0, ENTRIES / 2, ENTRIES - 1, ENTRIES].map(|entry| {
        let position = u64::from(entry * BYTES);
        let expected = if entry < ENTRIES { Answer::found(entry as usize, &[]) } else { Answer::none(0) };
        assert_eq!(search(&list, position), expected, "a search for {position}");
        median(&(0..rounds).map(|_| time_of(|| search(&list, position))).collect::<Vec<f64>>())
    });
    let [least, most] = ends(&times).map(|time| time * 1e6);
    format!("A search in a list of {ENTRIES} entries takes {least:.1} to {most:.1} microseconds, by the position.\n")
}

fn search(list: &[u32], position: u64) -> Answer {
    port::answer(|words| port::contents_search(black_box(list), black_box(position), words))
}
