//! What is measured.

use original::FAST_WINDOW;
use protocol::{Answer, Call, Span, Spelling, Token, WORDS, code};
use saves::{Flavour, Plan, Rng, narrow, save};
use std::hint::black_box;

#[derive(Clone, Copy, Debug, PartialEq, Eq)]
pub enum Side {
    Port,
    Original,
}

impl Side {
    pub const ALL: [Side; 2] = [Side::Port, Side::Original];

    pub fn name(self) -> &'static str {
        match self {
            Side::Port => "port",
            Side::Original => "original",
        }
    }
}

#[derive(Clone, Copy, Debug, PartialEq, Eq)]
pub enum Task {
    Read,
    Skip,
    Normalise,
    Shorten,
    Fast,
    Find,
    Contents,
    /// Beside the port's own count of tokens, in place of the original.
    ContentsToCount,
    Rescue,
    /// Beside the port's own normaliser, in place of the original.
    RescueToNormalise,
    /// The same, with strays.
    StraysToNormalise,
}

impl Task {
    const ALL: [Task; 11] = [
        Task::Read,
        Task::Skip,
        Task::Normalise,
        Task::Shorten,
        Task::Fast,
        Task::Find,
        Task::Contents,
        Task::ContentsToCount,
        Task::Rescue,
        Task::RescueToNormalise,
        Task::StraysToNormalise,
    ];

    /// Colours are not fast, and the last three flavours have some.
    fn flavours(self) -> &'static [Flavour] {
        match self {
            Task::Fast => &Flavour::ALL[..5],
            _ => &Flavour::ALL,
        }
    }

    pub fn name(self) -> &'static str {
        match self {
            Task::Read => "read",
            Task::Skip => "skip",
            Task::Normalise => "normalise",
            Task::Shorten => "shorten",
            Task::Fast => "fast step",
            Task::Find => "find key",
            Task::Contents => "contents",
            Task::ContentsToCount => "contents / the port's count",
            Task::Rescue => "rescue",
            Task::RescueToNormalise => "rescue / the port's normalise",
            Task::StraysToNormalise => "rescue with strays / the port's normalise",
        }
    }
}

/// One row of the table.
#[derive(Clone, Copy, Debug, PartialEq, Eq)]
pub struct Work {
    pub task: Task,
    pub flavour: Flavour,
}

const SIZE: usize = 1 << 20;
const LONGEST_TEXT: usize = 500;

impl Work {
    pub fn all() -> impl Iterator<Item = Work> {
        Task::ALL.into_iter().flat_map(|task| task.flavours().iter().map(move |&flavour| Work { task, flavour }))
    }

    /// For skipping, the save stands in a container whose Open is read already; to have a normal form, it has no wide
    /// lookups. The same save is shortened and rescued.
    pub fn input(self) -> Vec<u8> {
        let mut rng = Rng::new(self.flavour as u64);
        let mut bytes = save(Plan { flavour: self.flavour, size: SIZE, longest_text: LONGEST_TEXT }, &mut rng);
        match self.task {
            Task::Skip => bytes.extend([4, 0]),
            Task::Normalise | Task::Shorten | Task::Rescue | Task::RescueToNormalise => narrow(&mut bytes),
            Task::StraysToNormalise => {
                narrow(&mut bytes);
                bytes = with_strays(&bytes);
            }
            Task::Find => with_key(&mut bytes),
            Task::Read | Task::Fast | Task::Contents | Task::ContentsToCount => {}
        }
        bytes
    }
}

/// A stray after each token that ends outside of every container.
fn with_strays(bytes: &[u8]) -> Vec<u8> {
    let (tokens, _) = original::tokens(bytes);
    let ends = tokens.iter().skip(1).map(|(next, _)| *next).chain([bytes.len()]);
    let mut out = Vec::new();
    let mut depth = 0u64;
    for ((at, token), end) in tokens.iter().zip(ends) {
        out.extend(&bytes[*at..end]);
        match token {
            Token::Open => depth += 1,
            Token::Close => depth -= 1,
            _ => {}
        }
        if depth == 0 {
            out.extend([4, 0]);
        }
    }
    out
}

/// A key at the end, of an id that is none before.
fn with_key(bytes: &mut Vec<u8>) {
    let is_none = |id: &u16| original::find_key(bytes, 0, *id).is_some_and(|answer| answer.code == code::NONE);
    let id = (0x2000..0x3000).find(is_none).expect("an id that is no key");
    bytes.extend(id.to_le_bytes().into_iter().chain([1, 0]));
}

/// The id of the key that stands at the end.
fn last_key(bytes: &[u8]) -> u16 {
    let (key, _) = bytes[bytes.len() - 4..].split_first_chunk().expect("a key and Equal");
    u16::from_le_bytes(*key)
}

/// What is lent to the sides.
#[derive(Clone, Debug, PartialEq, Eq)]
pub struct Lent {
    out: Vec<u8>,
    list: Vec<Span>,
}

impl Lent {
    /// Room for any normal form, and for the entries of any save.
    pub fn new() -> Lent {
        Lent { out: vec![0; 6 * SIZE], list: vec![[0; 2]; SIZE] }
    }
}

/// The port's answer and output and the original's are the same, and all of the input is done. What is shortened is the
/// same once the original has written its tokens, a count of tokens and a normal form are the original's, and what is
/// rescued is the input.
pub fn agreed(work: Work, bytes: &[u8], lent: &mut Lent) -> bool {
    let [port, original] = Side::ALL.map(|side| {
        let answer = measured(side, work.task, bytes, lent);
        (answer, lent.clone())
    });
    let (Answer { code, words }, written) = &port;
    let end = bytes.len() as u64;
    let done = match work.task {
        Task::Read | Task::Skip => words[0] == end,
        Task::Normalise => words[0] >= end,
        Task::Shorten => words[0] <= end,
        Task::Fast => words[0] + (FAST_WINDOW as u64) > end,
        Task::Find => words[1] + 4 == end,
        Task::Contents | Task::ContentsToCount => words[0] > 0,
        Task::Rescue | Task::RescueToNormalise => words[..4] == [end, 0, 0, 0],
        Task::StraysToNormalise => words[0] + 2 * words[2] == end && words[2] > 0,
    };
    let same = match work.task {
        Task::Shorten => {
            let shortened = &written.out[..words[0] as usize];
            (original::normalise(shortened, &mut lent.out), lent.clone()) == original
        }
        Task::ContentsToCount => original.0 == original::count_tokens(bytes),
        Task::Rescue => written.out.starts_with(bytes) && original.0.code == code::ANSWERED,
        Task::RescueToNormalise | Task::StraysToNormalise => {
            original == (original::normalise(bytes, &mut lent.out), lent.clone())
        }
        _ => port == original,
    };
    *code == code::ANSWERED && done && same
}

/// Not taken apart by the compiler, and found by its name: only what runs in here is counted.
#[unsafe(no_mangle)]
#[inline(never)]
pub fn stivlaheim_bench_measured(side: Side, task: Task, bytes: &[u8], lent: &mut Lent) -> Answer {
    let Lent { out, list } = lent;
    match (side, task) {
        (Side::Port, Task::Read) | (Side::Original, Task::ContentsToCount) => {
            port::answer(|words| port::count_tokens(bytes, words))
        }
        (Side::Port, Task::Skip) => port::answer(|words| port::lex(bytes, 0, 0, Call::SkipContainer, words)),
        (Side::Port, Task::Normalise) | (Side::Original, Task::RescueToNormalise | Task::StraysToNormalise) => {
            port::answer(|words| port::respell(Spelling::Normal, bytes, out, words))
        }
        (Side::Port, Task::Rescue | Task::RescueToNormalise | Task::StraysToNormalise) => {
            port::answer(|words| port::rescue(bytes, out, words))
        }
        (Side::Port, Task::Shorten) => port::answer(|words| port::respell(Spelling::Shortest, bytes, out, words)),
        (Side::Port, Task::Fast) => port_steps(bytes),
        (Side::Port, Task::Find) => port::answer(|words| port::find_key(bytes, 0, 0, last_key(bytes), words)),
        (Side::Port, Task::Contents | Task::ContentsToCount) => {
            port::answer(|words| port::contents(bytes, list.as_flattened_mut(), words))
        }
        (Side::Original, Task::Read) => original::count_tokens(bytes),
        (Side::Original, Task::Skip) => original::skip_container(bytes),
        (Side::Original, Task::Normalise | Task::Shorten | Task::Rescue) => original::normalise(bytes, out),
        (Side::Original, Task::Fast) => original::step_fast(bytes),
        (Side::Original, Task::Find) => original::find_key(bytes, 0, last_key(bytes)).expect("a place in the input"),
        (Side::Original, Task::Contents) => original::contents(bytes, list),
    }
}

/// A call of the C function for each step; what is held is looked at, as on the other side.
fn port_steps(bytes: &[u8]) -> Answer {
    let mut held = [0; 8];
    let mut words = [0; WORDS];
    let (mut at, mut count, mut seen) = (0, 0, 0u64);
    while port::next_token_fast(&bytes[at..], &mut held, &mut words) == code::ANSWERED {
        at += words[0] as usize;
        count += 1;
        seen = seen.wrapping_add(u64::from_le_bytes(held)).wrapping_add(words[1]);
    }
    black_box(seen);
    Answer::found(at, &[count])
}

pub fn measured(side: Side, task: Task, bytes: &[u8], lent: &mut Lent) -> Answer {
    black_box(stivlaheim_bench_measured(side, task, black_box(bytes), black_box(lent)))
}

pub fn once(side: Side, work: Work) {
    let answer = measured(side, work.task, &work.input(), &mut Lent::new());
    assert_eq!(answer.code, code::ANSWERED, "{work:?}");
}
