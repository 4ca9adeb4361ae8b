//! Times of both sides, in turns.

use crate::clock;
use crate::work::{Lent, Side, Work, agreed, measured};

/// How many seconds one time is taken for at the least.
const SHORTEST: f64 = 0.008;

/// A row's times of one pass, round by round.
pub struct Row {
    pub work: Work,
    pub bytes: usize,
    pub tokens: u64,
    pub port: Vec<f64>,
    pub original: Vec<f64>,
}

pub fn all(rounds: usize) -> Vec<Row> {
    let inputs: Vec<Vec<u8>> = Work::all().map(Work::input).collect();
    let mut lent = Lent::new();
    let mut rows: Vec<Row> = Work::all().zip(&inputs).map(|(work, bytes)| row(work, bytes, &mut lent)).collect();
    for round in 0..rounds {
        for (row, bytes) in rows.iter_mut().zip(&inputs) {
            one_round(row, bytes, &mut lent, round);
        }
    }
    rows
}

fn row(work: Work, bytes: &[u8], lent: &mut Lent) -> Row {
    assert!(agreed(work, bytes, lent), "{work:?}: the sides do not agree");
    let tokens = original::count_tokens(bytes).words[1];
    Row { work, bytes: bytes.len(), tokens, port: Vec::new(), original: Vec::new() }
}

/// The side that goes first changes from round to round.
fn one_round(row: &mut Row, bytes: &[u8], lent: &mut Lent, round: usize) {
    let mut order = Side::ALL;
    order.rotate_left(round % 2);
    for side in order {
        let time = seconds(side, row.work, bytes, lent);
        match side {
            Side::Port => row.port.push(time),
            Side::Original => row.original.push(time),
        }
    }
}

fn seconds(side: Side, work: Work, bytes: &[u8], lent: &mut Lent) -> f64 {
    time_of(|| measured(side, work.task, bytes, lent))
}

/// The seconds of one pass, by as many as take long enough; one more goes before them.
pub fn time_of<T>(mut pass: impl FnMut() -> T) -> f64 {
    pass();
    let start = clock::seconds();
    let mut passes = 0;
    loop {
        pass();
        passes += 1;
        let time = clock::seconds() - start;
        if time >= SHORTEST {
            return time / f64::from(passes);
        }
    }
}
