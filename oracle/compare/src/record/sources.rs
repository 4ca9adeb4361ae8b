//! Calls of the window, each from one state: what they leave of the buffer and of the state is recorded too.

use super::entry::Entry;
use super::sample::Sample;
use crate::stages::source::{every_op, made, ops};
use crate::stages::specimen_requests;
use original::{Window, has_op};
use protocol::{Answer, Got, Numbers, Op, Request, STATE_WORDS, Source, WORDS, code};
use saves::{Rng, cut_and_changed_colours};

/// The most entries of a schedule that the replay takes.
const ENTRIES: usize = 8;
/// The longest buffer and the longest supply that are recorded of those from the seed.
const LONGEST: usize = 64;
/// So few of the colours are recorded.
const ONE_COLOUR_IN: usize = 4;
const FAILS: u32 = Source::FAILS;

type Words = [u64; STATE_WORDS];

pub fn all(sample: &mut Sample, seed: u64) {
    specimens(sample);
    for source in new().into_iter().chain(under_way()) {
        for op in every_op(&[0, 2, 5, usize::MAX]).chain([Op::Window]).filter(|op| has_op(*op)) {
            call(sample, &source, op);
        }
    }
    bad_states(sample);
    colours(sample);
    texts(sample);
    walks(sample, &mut Rng::new(seed));
    new_states(sample);
}

fn specimens(sample: &mut Sample) {
    for (line, request) in specimen_requests() {
        if let Request::Source { source, ops } = request {
            sample.note(&format!("The specimen: {line}"));
            along(sample, source, ops);
        }
    }
}

/// Slices, and streams whose reads are whole, short, empty or failing.
fn new() -> Vec<Source> {
    let supply = vec![1, 0, 0x61, 0x62, 0x63];
    let stream = |room: usize, schedule: &[u32]| Source::stream(vec![0xee; room], supply.clone(), schedule.to_vec());
    vec![
        Source::slice(Vec::new()),
        Source::slice(supply.clone()),
        stream(0, &[]),
        stream(3, &[]),
        stream(8, &[1, 1, 1, 0, 1]),
        stream(8, &[FAILS, 0, 3]),
        stream(8, &[3, FAILS]),
    ]
}

/// The window in the middle of what holds it, at its end, and over all of it; and a supply that is used up.
fn under_way() -> Vec<Source> {
    let buffer = vec![0xb1, 0xb2, 0xb3, 2, 0, 0xb6];
    let stream = Source::stream(buffer.clone(), vec![0xc1, 0xc2, 0xc3, 0xc4], vec![9, 2, 0, FAILS]);
    let at = |start, end, supply, schedule, position| Some(Numbers { start, end, supply, schedule, position });
    vec![
        Source { given: at(1, 3, 4, 2, 70), ..Source { streaming: false, ..stream.clone() } },
        Source { given: at(1, 3, 4, 0, usize::MAX - 2), ..Source::slice(vec![0xd1, 1, 0, 0xd4]) },
        Source { given: at(3, 5, 1, 1, 70), ..stream.clone() },
        Source { given: at(3, 6, 0, 4, usize::MAX - 7), ..stream.clone() },
        Source { given: at(0, 6, 1, 0, 6), ..stream.clone() },
        Source { given: at(4, 4, 4, 2, 1 << 40), ..stream },
    ]
}

/// FORMAT.md's answers: each number that does not fit, the first of several, and sixth words of no source.
fn bad_states(sample: &mut Sample) {
    let stream = Source::stream(vec![1, 2, 3], vec![4, 5], vec![1]);
    let slice = Source { streaming: false, ..stream.clone() };
    let fits = Numbers { start: 1, end: 2, supply: 1, schedule: 1, position: 5 };
    let bad = [
        (&stream, Numbers { start: 3, ..fits }),
        (&stream, Numbers { supply: 3, schedule: 2, ..fits }),
        (&stream, Numbers { schedule: usize::MAX, ..fits }),
        (&stream, Numbers { position: usize::MAX - 1, ..fits }),
        (&slice, Numbers { end: 3, ..fits }),
    ];
    for op in every_op(&[1]).chain([Op::Window]) {
        for (source, numbers) in bad {
            call(sample, &Source { given: Some(numbers), ..source.clone() }, op);
        }
        no_source(sample, &stream, op, 2);
        no_source(sample, &slice, op, 1 << 32);
    }
}

fn no_source(sample: &mut Sample, source: &Source, op: Op, kind: u64) {
    let mut words = source.words();
    words[STATE_WORDS - 1] = kind;
    let answer = Answer { code: code::BAD_ARGUMENT, words: [u64::MAX; WORDS] };
    add(sample, (name(op), op.count()), answer, (source, words), &left(&source.buffer, words));
}

/// Whole, cut and changed, at once, in pieces, and in pieces with reads that give nothing.
fn colours(sample: &mut Sample) {
    for colour in cut_and_changed_colours().iter().filter_map(|colour| colour.get(2..)).step_by(ONE_COLOUR_IN) {
        call(sample, &Source::slice(colour.to_vec()), Op::ReadRgb);
        let stream = |schedule: &[u32]| Source::stream(vec![0xee; 8], colour.to_vec(), schedule.to_vec());
        call(sample, &stream(&[7, 1, 3]), Op::ReadRgb);
        along(sample, stream(&[7, FAILS, 9, 0, 5]), vec![Op::ReadRgb; 2]);
    }
}

/// In a byte too few, just enough, and one more, through buffers a little too short and long enough.
fn texts(sample: &mut Sample) {
    for len in [0u16, 1, 6] {
        let whole = 2 + usize::from(len);
        for there in whole - 1..=whole + 1 {
            let supply: Vec<u8> = len.to_le_bytes().into_iter().chain(0x61..).take(there).collect();
            call(sample, &Source::slice(supply.clone()), Op::ReadBstr);
            for room in [whole - 1, whole] {
                let source = Source::stream(vec![0xee; room], supply.clone(), vec![1, FAILS, 2, 0]);
                along(sample, source, vec![Op::ReadBstr; 3]);
            }
        }
    }
}

/// Operations on sources from the seed.
fn walks(sample: &mut Sample, rng: &mut Rng) {
    for _ in 0..30 {
        let (source, reads) = made(rng);
        let ops = ops(rng, &source, reads);
        if source.schedule.len() <= ENTRIES && source.supply.len().max(source.buffer.len()) <= LONGEST {
            along(sample, source, ops);
        }
    }
}

/// Of the two kinds of source, in words that are all taken.
fn new_states(sample: &mut Sample) {
    for source in new() {
        let call = if source.streaming { "source_from_reader" } else { "source_from_slice" };
        let words = Window::new(&source).numbers().words(source.streaming);
        let answer = Answer { code: code::ANSWERED, words: [0; WORDS] };
        add(sample, (call, None), answer, (&source, [u64::MAX; STATE_WORDS]), &left(&source.buffer, words));
    }
}

/// Each operation from the state that the one before it left.
fn along(sample: &mut Sample, source: Source, ops: Vec<Op>) {
    ops.into_iter().fold(source, |source, op| call(sample, &source, op));
}

/// Answers the source as the call leaves it.
fn call(sample: &mut Sample, source: &Source, op: Op) -> Source {
    let (got, after) = match source.bad_place() {
        Some(position) => (Got::Refused { code: code::BAD_PLACE, position, missing: 0 }, source.clone()),
        None => by_original(source, op),
    };
    let output = left(&after.buffer, after.words());
    add(sample, (name(op), op.count()), got.answer(after.numbers().position), (source, source.words()), &output);
    after
}

fn by_original(source: &Source, op: Op) -> (Got, Source) {
    let mut window = Window::new(source);
    let got = window.call(op).expect("an operation of the original");
    let buffer = window.buffer().unwrap_or(&source.buffer).to_vec();
    (got, Source { given: Some(window.numbers()), buffer, ..source.clone() })
}

fn add(
    sample: &mut Sample,
    (call, count): (&'static str, Option<usize>),
    answer: Answer,
    (source, words): (&Source, Words),
    output: &[u8],
) {
    let Source { buffer, schedule, supply, .. } = source;
    assert!(schedule.len() <= ENTRIES, "{} entries", schedule.len());
    let entries: Vec<u8> = schedule.iter().flat_map(|entry| entry.to_le_bytes()).collect();
    let bytes = [&left(buffer, words), &[schedule.len() as u8][..], &entries, supply].concat();
    sample.add_output(
        &Entry { call, at: buffer.len(), offset: 0, arg: count.unwrap_or(0), answer, bytes: &bytes },
        output,
    );
}

/// A buffer, and behind it a state's words.
fn left(buffer: &[u8], words: Words) -> Vec<u8> {
    [buffer, words.map(u64::to_le_bytes).as_flattened()].concat()
}

fn name(op: Op) -> &'static str {
    match op {
        Op::Ensure(_) => "source_ensure_bytes",
        Op::Refill => "source_refill",
        Op::Peek(_) => "source_peek",
        Op::Take(_) => "source_take",
        Op::TryTake(_) => "source_try_take",
        Op::TakeBytes(_) => "source_take_bytes",
        Op::TryTakeBytes(_) => "source_try_take_bytes",
        Op::Advance(_) => "source_advance",
        Op::WindowLen => "source_window_len",
        Op::Window => "source_window",
        Op::ReadBstr => "source_read_bstr",
        Op::ReadLexemeId => "source_read_lexeme_id",
        Op::PeekLexemeId => "source_peek_lexeme_id",
        Op::ReadRgb => "source_read_rgb",
    }
}
