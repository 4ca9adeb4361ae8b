//! Questions for which the port is lent more than the answer list: an output, bytes that are held, or a list of numbers.

use crate::case::{Ask, ROOM, Seen};
use protocol::{Answer, code, hex};
use std::fmt::Debug;

/// What is lent is made of.
pub trait Unit: Copy + PartialEq + Debug {
    const NAME: &'static str;
    /// What lies after what is lent and is not handed over.
    const BEYOND: [Self; 4];

    /// The first of many.
    fn shortened(units: &[Self]) -> String;
}

impl Unit for u8 {
    const NAME: &'static str = "bytes";
    const BEYOND: [u8; 4] = BEYOND;

    fn shortened(units: &[u8]) -> String {
        shortened(units)
    }
}

impl Unit for u32 {
    const NAME: &'static str = "numbers";
    const BEYOND: [u32; 4] = [0x5ea1_ed00, 0xa1ed_005e, 0xed00_5ea1, 0x005e_a1ed];

    fn shortened(units: &[u32]) -> String {
        match units.get(..SHORTENED) {
            Some(first) => format!("{first:?}.. ({} numbers)", units.len()),
            None => format!("{units:?}"),
        }
    }
}

/// A question that the port answers in a lent list and in lent units.
pub trait Lend {
    type Unit: Unit;

    /// The units before the call.
    fn lent(&self) -> Vec<Self::Unit>;

    fn ask(&self, lent: &mut [Self::Unit], answer: &mut [u64]) -> u32;
}

/// Whatever is lent a list alone is lent no bytes.
impl<C: Ask> Lend for C {
    type Unit = u8;

    fn lent(&self) -> Vec<u8> {
        Vec::new()
    }

    fn ask(&self, _lent: &mut [u8], answer: &mut [u64]) -> u32 {
        Ask::ask(self, answer)
    }
}

/// An output before the call: no two neighbours alike, so that what is moved is seen too.
pub fn output(room: usize) -> Vec<u8> {
    (0..room).map(|at| (at as u8).wrapping_mul(7) ^ 0xa5).collect()
}

/// A list before the call: no two numbers alike, none of them a place in a save, and no entry in order.
pub fn numbers(room: usize) -> Vec<u32> {
    (0..room).map(|at| u32::MAX - 7 * at as u32).collect()
}

/// What lies after the lent bytes and is not handed over.
pub const BEYOND: [u8; 4] = [0x5e, 0xa1, 0xed, 0x00];

/// A code and the lent list, and the lent units after the call with what lies beyond them.
#[derive(Debug, PartialEq, Eq)]
pub struct SeenLent<U = u8> {
    pub seen: Seen,
    units: Vec<U>,
}

impl<U: Unit> SeenLent<U> {
    /// `room` words of the list are handed over.
    pub fn of_port(case: &impl Lend<Unit = U>, room: usize) -> SeenLent<U> {
        let mut units = before(case);
        let end = units.len() - U::BEYOND.len();
        let seen = Seen::of(room, |answer| case.ask(&mut units[..end], answer));
        SeenLent { seen, units }
    }

    pub fn port(case: &impl Lend<Unit = U>) -> SeenLent<U> {
        SeenLent::of_port(case, ROOM)
    }

    /// Nothing is changed, not even the list.
    pub fn untouched(case: &impl Lend<Unit = U>, code: u32) -> SeenLent<U> {
        SeenLent { seen: Seen::untouched(code), units: before(case) }
    }

    /// The lent units are as they were.
    pub fn answered(case: &impl Lend<Unit = U>, answer: Answer) -> SeenLent<U> {
        SeenLent { seen: answer.into(), units: before(case) }
    }

    /// The first of the lent units are changed, and these alone.
    pub fn changed(case: &impl Lend<Unit = U>, answer: Answer, front: &[U]) -> SeenLent<U> {
        let mut seen = SeenLent::answered(case, answer);
        seen.units[..front.len()].copy_from_slice(front);
        seen
    }

    pub fn lent(&self) -> &[U] {
        &self.units[..self.units.len() - U::BEYOND.len()]
    }

    /// Code, words, and how the lent units differ from those before the call.
    pub fn raw(&self, case: &impl Lend<Unit = U>) -> String {
        let before = before(case);
        let differ = |at: &usize| before[*at] != self.units[*at];
        let first = (0..before.len()).find(differ);
        let changed = match first.zip((0..before.len()).rfind(differ)) {
            Some((first, last)) => format!("from {first} to {last}: {}", U::shortened(&self.units[first..=last])),
            None => "none".to_string(),
        };
        format!("{}   of {} lent {} changed {changed}", self.seen.raw(), self.lent().len(), U::NAME)
    }
}

impl SeenLent {
    /// What a whole output holds: all is written and counted, or there is no room and nothing is written.
    pub fn whole(case: &impl Lend<Unit = u8>, room: usize, written: &[u8]) -> SeenLent {
        SeenLent::whole_telling(case, room, written, &[])
    }

    /// The same, with words after the count that tell of what is written.
    pub fn whole_telling(case: &impl Lend<Unit = u8>, room: usize, written: &[u8], told: &[u64]) -> SeenLent {
        let need = written.len();
        if room < need {
            return SeenLent::answered(case, Answer::refused(code::NO_ROOM, 0, need));
        }
        SeenLent::changed(case, Answer::found(need, told), written)
    }
}

pub const SHORTENED: usize = 32;

/// The first of many bytes.
pub fn shortened(bytes: &[u8]) -> String {
    match bytes.get(..SHORTENED) {
        Some(first) => format!("{}.. ({} bytes)", hex(first), bytes.len()),
        None => hex(bytes),
    }
}

fn before<L: Lend>(case: &L) -> Vec<L::Unit> {
    let mut units = case.lent();
    units.extend(L::Unit::BEYOND);
    units
}
