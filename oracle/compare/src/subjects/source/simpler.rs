//! From a source to simpler ones near it.

use crate::shrink::{cuts, less, moved, without, zeroed};
use protocol::{Numbers, STATE_WORDS, Source};
use std::ops::Range;

pub fn simpler(source: &Source) -> impl Iterator<Item = Source> {
    let new = source.given.map(|_| Source { given: None, ..source.clone() });
    new.into_iter().chain(shorter(source)).chain(lower(source)).chain(plainer(source))
}

/// The same with other lists, and other numbers where they are given.
fn changed(source: &Source, change: impl FnOnce(&mut Source, &mut Numbers)) -> Source {
    let (mut source, mut numbers) = (source.clone(), source.numbers());
    change(&mut source, &mut numbers);
    source.given = source.given.map(|_| numbers);
    source
}

/// The window goes along with what holds it.
fn move_window(numbers: &mut Numbers, cut: &Range<usize>) {
    numbers.start = moved(numbers.start, cut);
    numbers.end = moved(numbers.end, cut);
}

fn shorter(source: &Source) -> impl Iterator<Item = Source> {
    let supplies = cuts(source.supply.len()).map(|cut| {
        changed(source, |source, numbers| {
            source.supply = without(&source.supply, &cut);
            numbers.supply = moved(numbers.supply, &cut);
            if !source.streaming {
                move_window(numbers, &cut);
            }
        })
    });
    let schedules = cuts(source.schedule.len()).map(|cut| {
        changed(source, |source, numbers| {
            source.schedule = without(&source.schedule, &cut);
            numbers.schedule = moved(numbers.schedule, &cut);
        })
    });
    let buffers = cuts(source.buffer.len()).map(|cut| {
        changed(source, |source, numbers| {
            source.buffer = without(&source.buffer, &cut);
            if source.streaming {
                move_window(numbers, &cut);
            }
        })
    });
    supplies.chain(schedules).chain(buffers)
}

/// Lower numbers where they are given, and lower entries of the schedule.
fn lower(source: &Source) -> impl Iterator<Item = Source> {
    let words = source.given.iter().flat_map(|numbers| numbers.words(source.streaming));
    let words = words
        .take(STATE_WORDS - 1)
        .enumerate()
        .flat_map(|(at, word)| less(word as usize).map(move |lower| (at, lower)));
    let numbers = words.map(|(at, lower)| {
        let mut words = source.words();
        words[at] = lower as u64;
        Source { given: Some(Numbers::of_words(words)), ..source.clone() }
    });
    let entries = source.schedule.iter().enumerate();
    let entries = entries.flat_map(|(at, entry)| less(*entry as usize).map(move |lower| (at, lower)));
    numbers.chain(entries.map(|(at, lower)| changed(source, |source, _| source.schedule[at] = lower as u32)))
}

/// More bytes that are zero.
fn plainer(source: &Source) -> impl Iterator<Item = Source> {
    let buffers = zeroed(&source.buffer).map(|buffer| Source { buffer, ..source.clone() });
    buffers.chain(zeroed(&source.supply).map(|supply| Source { supply, ..source.clone() }))
}
