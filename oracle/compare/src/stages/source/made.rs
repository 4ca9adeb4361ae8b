//! Sources from the seed, new and under way.

use protocol::{Numbers, Op, Source};
use saves::ids::{QUOTED, RGB};
use saves::{Flavour, Plan, Rng, bad_colour, flip, random_bytes, random_ids, save, token};

const LONGEST_BUFFER: usize = 40;
const LONGER_BUFFERS: [usize; 5] = [63, 64, 65, 256, 300];

/// A source, and the operation that reads what it begins with.
pub fn made(rng: &mut Rng) -> (Source, Op) {
    let (bytes, reads) = content(rng);
    let under_way = rng.one_in(2);
    if rng.one_in(5) {
        let source = Source::slice(bytes);
        return (if under_way { slice_under_way(rng, source) } else { source }, reads);
    }
    let length = if rng.one_in(12) { rng.pick(&LONGER_BUFFERS) } else { rng.below(LONGEST_BUFFER + 1) };
    let source = Source::stream(bytes_of(rng, length), bytes, schedule(rng));
    (if under_way { stream_under_way(rng, source) } else { source }, reads)
}

fn bytes_of(rng: &mut Rng, length: usize) -> Vec<u8> {
    let mut bytes = Vec::new();
    rng.fill(&mut bytes, length);
    bytes
}

fn content(rng: &mut Rng) -> (Vec<u8>, Op) {
    match rng.below(8) {
        0 => (random_bytes(rng, 80), rng.pick(Op::PLAIN)),
        1 => (random_ids(rng, 80), Op::ReadLexemeId),
        2 => (colours(rng), Op::ReadRgb),
        3 => (texts(rng), Op::ReadBstr),
        4 => (damaged(rng), Op::ReadLexemeId),
        _ => (whole(rng), Op::ReadLexemeId),
    }
}

fn whole(rng: &mut Rng) -> Vec<u8> {
    let flavour = rng.pick(&Flavour::ALL);
    let size = if rng.one_in(10) { 600 } else { 80 };
    save(Plan { flavour, size: rng.below(size), longest_text: 20 }, rng)
}

fn damaged(rng: &mut Rng) -> Vec<u8> {
    let mut bytes = whole(rng);
    flip(rng, &mut bytes);
    bytes.truncate(bytes.len() - rng.below(bytes.len().min(8) + 1));
    bytes
}

/// Some after each other without their ids; a bad one is the last.
fn colours(rng: &mut Rng) -> Vec<u8> {
    let mut bytes: Vec<u8> = (0..rng.below(4)).flat_map(|_| token(rng, RGB, 0).split_off(2)).collect();
    bytes.extend(&bad_colour(rng)[2..]);
    bytes
}

/// Some after each other without their ids.
fn texts(rng: &mut Rng) -> Vec<u8> {
    let longest = rng.below(LONGEST_BUFFER);
    (0..=rng.below(8)).flat_map(|_| token(rng, QUOTED, longest).split_off(2)).collect()
}

fn schedule(rng: &mut Rng) -> Vec<u32> {
    let length = rng.pick(&[0, 4, 40, 40]);
    let halts = rng.pick(&[3, 6, 1000]);
    let entry = |rng: &mut Rng| match rng.below(halts) {
        0 => 0,
        1 => Source::FAILS,
        _ if rng.one_in(12) => rng.pick(&[100, 0xffff, 0x1_0000, 0x8000_0000, 0xffff_fffe]),
        _ => 1 + rng.below(12) as u32,
    };
    (0..rng.below(length + 1)).map(|_| entry(rng)).collect()
}

/// With a buffer and a schedule, which are not looked at.
fn slice_under_way(rng: &mut Rng, source: Source) -> Source {
    let length = source.supply.len();
    let (start, end) = window(rng, length);
    let supply = rng.below(length + 1);
    let position = position(rng, end - start + length - supply);
    let (room, schedule) = (rng.below(4), schedule(rng));
    let given = Some(Numbers { start, end, supply, schedule: rng.below(schedule.len() + 1), position });
    Source { buffer: bytes_of(rng, room), schedule, given, ..source }
}

/// The window holds the content's beginning, and the supply goes on with it.
fn stream_under_way(rng: &mut Rng, source: Source) -> Source {
    let Source { mut buffer, supply: content, schedule, .. } = source;
    let (start, end) = window(rng, buffer.len());
    let there = content.len().min(end - start);
    buffer[start..start + there].copy_from_slice(&content[..there]);
    let mut supply = random_bytes(rng, 4);
    let handed = supply.len();
    supply.extend(&content[there..]);
    let position = position(rng, end - start + content.len() - there);
    let used = if rng.one_in(2) { 0 } else { rng.below(schedule.len() + 1) };
    let given = Some(Numbers { start, end, supply: handed, schedule: used, position });
    Source { given, ..Source::stream(buffer, supply, schedule) }
}

/// Often at one of the ends.
fn window(rng: &mut Rng, length: usize) -> (usize, usize) {
    let end = if rng.one_in(3) { length } else { rng.below(length + 1) };
    let start = if rng.one_in(3) { rng.pick(&[0, end]) } else { rng.below(end + 1) };
    (start, end)
}

/// Sometimes the largest that there can be with so much ahead.
fn position(rng: &mut Rng, ahead: usize) -> usize {
    let most = usize::MAX - ahead;
    if rng.one_in(6) { most - rng.below(3) } else { most.min(rng.any_size() as usize) }
}
