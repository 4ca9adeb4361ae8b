//! The window: sources of few bytes and of many, in all states, and what is asked of them.

mod few;
mod lists;
mod made;
mod reading;
mod sequences;
mod states;

pub use made::made;
pub use sequences::ops;

use crate::run::Run;
use protocol::Op;
use saves::Rng;

pub fn sources(run: &mut Run, rng: &mut Rng, cases: usize) {
    lists::lists(run);
    few::few(run);
    states::states(run, rng);
    reading::colours(run);
    reading::texts(run);
    sequences::sequences(run, rng, cases);
}

/// Each operation once, or once with each count.
pub fn every_op(counts: &[usize]) -> impl Iterator<Item = Op> {
    let counted = Op::COUNTED.iter().flat_map(|op| counts.iter().map(|count| op(*count)));
    counted.chain(Op::PLAIN.iter().copied())
}
