//! Many operations on a source, chosen as the original goes along.

use super::made::made;
use crate::run::Run;
use crate::subjects::{Sequence, SourceLine};
use original::{Window, has_op};
use protocol::{Got, Numbers, Op, Source};
use saves::{Payload, Rng, payload};

/// For each generated save.
const SOURCES: usize = 32;
const MOST_OPS: usize = 32;
/// The text of so few requests and of their answers is compared too.
const ONE_LINE_IN: usize = 16;

pub fn sequences(run: &mut Run, rng: &mut Rng, cases: usize) {
    for case in 0..cases {
        if case % 64 == 0 {
            run.progress("sources", case, cases);
        }
        for _ in 0..SOURCES {
            one(run, rng);
        }
    }
}

fn one(run: &mut Run, rng: &mut Rng) {
    let (source, reads) = made(rng);
    let ops = ops(rng, &source, reads);
    let sequence = Sequence::new(source, ops);
    run.check(&sequence);
    if rng.one_in(ONE_LINE_IN)
        && let Some(line) = sequence.line()
    {
        run.check(&SourceLine(line));
    }
}

/// What reads the content is asked for until it is answered or left out; between that anything, or what moves nothing.
pub fn ops(rng: &mut Rng, source: &Source, reads: Op) -> Vec<Op> {
    let mut window = Window::new(source);
    let between = rng.pick(&[any_op, still_op]);
    let mut due = reads;
    let mut ops = Vec::new();
    for _ in 0..=rng.below(MOST_OPS) {
        let op = if rng.one_in(3) { between(rng, source, &window) } else { due };
        let got = window.call(op).expect("an operation of the original");
        due = match got {
            Got::Number(id) if op == Op::ReadLexemeId => payload_op(rng, id as u16).unwrap_or(reads),
            Got::Refused { .. } if rng.one_in(3) => Op::Advance(1 + rng.below(4)),
            Got::Refused { .. } => due,
            _ if op == due => reads,
            _ => due,
        };
        ops.push(op);
    }
    ops
}

/// What reads an id's payload.
fn payload_op(rng: &mut Rng, id: u16) -> Option<Op> {
    match payload(id) {
        Payload::Text => Some(Op::ReadBstr),
        Payload::Colour => Some(Op::ReadRgb),
        Payload::Bytes(0) => None,
        Payload::Bytes(count) => Some(rng.pick(&[Op::Take, Op::TryTake, Op::TakeBytes, Op::TryTakeBytes])(count)),
    }
}

/// A count that the original has no constant for goes to a call that takes it as a number.
fn any_op(rng: &mut Rng, source: &Source, window: &Window) -> Op {
    if rng.one_in(4) {
        return rng.pick(Op::PLAIN);
    }
    let count = count(rng, source, window);
    let op = rng.pick(Op::COUNTED)(count);
    if has_op(op) { op } else { rng.pick(&[Op::TakeBytes, Op::TryTakeBytes])(count) }
}

fn still_op(rng: &mut Rng, source: &Source, window: &Window) -> Op {
    let count = count(rng, source, window);
    let ops = [Op::Ensure(count), Op::Peek(count), Op::Refill, Op::WindowLen, Op::PeekLexemeId];
    let op = rng.pick(&ops);
    if has_op(op) { op } else { Op::Ensure(count) }
}

/// None, few, about as many as there are, and more than there can be.
fn count(rng: &mut Rng, source: &Source, window: &Window) -> usize {
    let Numbers { start, supply, position, .. } = window.numbers();
    let (length, room) = (window.window().len(), source.buffer.len());
    let near = rng.pick(&[length, room, length + source.supply.len() - supply]);
    match rng.below(10) {
        0 => 0,
        1 => near.saturating_sub(1),
        2 => near,
        3 => near + 1,
        4 => {
            let wrapping = [usize::MAX - length, start.wrapping_neg(), position.wrapping_neg()];
            [rng.pick(&wrapping), rng.pick(&[1 << 32, 1 << 60, usize::MAX])][rng.below(2)]
        }
        _ => 1 + rng.below(9),
    }
}
