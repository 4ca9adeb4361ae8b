//! What a refused read misses, beside the original's refusals: the number itself is none of its words.

use original::Window;
use protocol::{Answer, Call, Got, Op, Source, code, unhex};
use saves::{
    Flavour, Payload, Plan, RESERVED, Rng, bad_colour, cut_and_changed_colours, payload, random_ids, save, token,
};

fn bytes(hex: &str) -> Vec<u8> {
    unhex(&hex.replace(' ', "")).unwrap_or_else(|| panic!("{hex} is no hex"))
}

fn lex(bytes: &[u8], at: usize, call: Call) -> Answer {
    original::lex(bytes, at, call).expect("a place in the input")
}

/// The numbers of an Eof: its position, and what is missing.
fn eof(answer: Answer) -> Option<(u64, u64)> {
    let [_, position, missing, ..] = answer.words;
    (answer.code == code::EOF).then_some((position, missing))
}

/// Each at every number of bytes that is too few.
#[test]
fn fixed_pieces() {
    let reads = [
        (Call::ReadId, 2),
        (Call::NextId, 2),
        (Call::ReadBool, 1),
        (Call::ReadLookupU8, 1),
        (Call::ReadLookupU16, 2),
        (Call::ReadLookupU24, 3),
        (Call::ReadLookupU32, 4),
        (Call::ReadU32, 4),
        (Call::ReadI32, 4),
        (Call::ReadF32, 4),
        (Call::ReadU64, 8),
        (Call::ReadI64, 8),
        (Call::ReadF64, 8),
        (Call::ReadRgb, 22),
        (Call::ReadBytes(7), 7),
        (Call::SkipValue(0x0014), 4),
        (Call::SkipValue(0x0243), 22),
        (Call::SkipValue(0x0d51), 3),
    ];
    for (call, count) in reads {
        for left in 0..count {
            let bytes = vec![0; 3 + left];
            let expected = if call == Call::NextId && left == 0 { None } else { Some((3, (count - left) as u64)) };
            assert_eq!(eof(lex(&bytes, 3, call)), expected, "{call} with {left}");
        }
    }
}

#[test]
fn as_many_as_are_asked_for() {
    for (count, missing) in [(1, 1), (9, 9), (usize::MAX, u64::MAX)] {
        assert_eq!(eof(lex(&[1, 2], 2, Call::ReadBytes(count))), Some((2, missing)));
    }
    assert_eq!(eof(lex(&[1, 2], 1, Call::ReadBytes(usize::MAX))), Some((1, u64::MAX - 1)));
    assert_eq!(eof(lex(&[1, 2], 0, Call::ReadBytes(2))), None);
}

/// An id is a piece, and what follows it another.
#[test]
fn tokens() {
    for id in RESERVED {
        let id_bytes = id.to_le_bytes();
        assert_eq!(eof(lex(&[], 0, Call::ReadToken)), Some((0, 2)));
        assert_eq!(eof(lex(&id_bytes[..1], 0, Call::NextToken)), Some((0, 1)));
        let count = match payload(id) {
            Payload::Bytes(count) => count,
            Payload::Text => 2,
            Payload::Colour => 22,
        };
        for left in 0..count {
            let bytes = [&[9, 9][..], &id_bytes, &vec![0; left]].concat();
            let missing = (count - left) as u64;
            assert_eq!(eof(lex(&bytes, 2, Call::ReadToken)), Some((2, missing)), "{id:#06x} with {left}");
            assert_eq!(eof(original::count_tokens(&bytes)), Some((2, missing)), "{id:#06x} with {left}");
            assert_eq!(eof(original::tokens(&bytes).1), Some((2, missing)), "{id:#06x} with {left}");
        }
    }
}

#[test]
fn texts() {
    for (text, missing) in [("-", 2), ("09", 1), ("0900", 9), ("0900 61", 8), ("0001 61", 255), ("ffff", 65_535)] {
        let text = bytes(text);
        assert_eq!(eof(lex(&text, 0, Call::ReadString)), Some((0, missing)), "{text:x?}");
        for id in [0x000f, 0x0017, 0x0d5e] {
            let token = [&u16::to_le_bytes(id)[..], &text].concat();
            assert_eq!(eof(lex(&token, 0, Call::ReadToken)), Some((0, missing)), "{token:x?}");
            assert_eq!(eof(lex(&token, 2, Call::SkipValue(id))), Some((2, missing)), "{token:x?}");
        }
    }
}

/// 22 bytes in one piece, whatever they are; six more only after the ids that want them.
#[test]
fn colours() {
    let whole = bytes("0300 140001000000 140002000000 140003000000 140004000000 0400");
    for len in 0..whole.len() {
        let missing = if len < 22 { 22 - len } else { 28 - len } as u64;
        let cut = &whole[..len];
        let token = [&[0x43, 2][..], cut].concat();
        assert_eq!(eof(lex(cut, 0, Call::ReadRgb)), Some((0, missing)), "{len}");
        assert_eq!(eof(lex(cut, 0, Call::SkipValue(0x0243))), Some((0, missing)), "{len}");
        assert_eq!(eof(lex(&token, 0, Call::ReadToken)), Some((0, missing)), "{len}");
        for place in [0, 2, 8, 14] {
            let mut wrong = cut.to_vec();
            wrong[place.min(len)..].iter_mut().take(2).for_each(|byte| *byte ^= 0x20);
            let expected = (len < 22).then_some((0, missing));
            assert_eq!(eof(lex(&wrong, 0, Call::ReadRgb)), expected, "{len} {place}");
        }
    }
}

/// The walk's own pieces, at each place where it can end; a colour is no piece of it.
#[test]
fn containers() {
    let cases = [
        ("-", 0, 2),
        ("03", 0, 1),
        ("0300", 2, 2),
        ("0300 0400", 4, 2),
        ("0128 0100", 4, 2),
        ("0128 04", 2, 1),
        ("140001000000 0128 1400", 10, 4),
        ("1400 010000", 2, 1),
        ("6701 010203", 2, 5),
        ("0e00", 2, 1),
        ("450d 0102", 2, 1),
        ("550d", 2, 7),
        ("0f00", 2, 2),
        ("0f00 02", 2, 1),
        ("0f00 0300", 2, 3),
        ("0300 1700 0300 61", 4, 2),
        ("4302", 2, 2),
        ("4302 0300", 4, 2),
        ("4302 0300 1400 01", 6, 3),
        ("4302 0300 140001000000 140002000000 140003000000 0400", 24, 2),
        ("420d 470d 01", 4, 1),
    ];
    for (input, position, missing) in cases {
        let input = bytes(input);
        for call in [Call::SkipContainer, Call::SkipValue(3)] {
            assert_eq!(eof(lex(&input, 0, call)), Some((position, missing)), "{input:x?}");
        }
        assert_eq!(eof(original::skip_container(&input)), Some((position, missing)), "{input:x?}");
    }
}

#[test]
fn handed_on() {
    let cut = bytes("0128 0100 0f00 0900 61");
    assert_eq!(eof(original::find_key(&cut, 0, 0x2802).expect("a place in the input")), Some((4, 8)));
    assert_eq!(eof(original::find_key(&cut, 2, 0x2802).expect("a place in the input")), Some((4, 8)));
    assert_eq!(eof(original::contents(&cut, &mut [])), Some((4, 8)));
    assert_eq!(eof(original::normalise(&cut, &mut [0; 64])), Some((4, 8)));
}

/// By the original alone: with a byte fewer than are missing it still refuses, there; with just so many it goes on, if
/// only to a string's text or to a colour's second piece.
#[test]
fn the_missing_bytes_are_enough_and_no_fewer_are() {
    let mut rng = Rng::new(7);
    let mut inputs = cut_and_changed_colours();
    for flavour in Flavour::ALL {
        inputs.push(save(Plan { flavour, size: 60, longest_text: 12 }, &mut rng));
        inputs.push(bad_colour(&mut rng));
        inputs.push(random_ids(&mut rng, 40));
    }
    inputs.extend(RESERVED.map(|id| token(&mut rng, id, 12)));
    let mut refused = 0;
    for input in inputs {
        for len in 0..=input.len() {
            let cut = &input[..len];
            for call in [Call::ReadToken, Call::ReadString, Call::ReadU64, Call::ReadRgb, Call::SkipContainer] {
                refused += usize::from(one_cut(cut, call));
            }
        }
    }
    assert!(refused > 5000, "{refused}");
}

fn one_cut(cut: &[u8], call: Call) -> bool {
    let Some((position, missing)) = eof(lex(cut, 0, call)) else {
        return false;
    };
    assert!(missing >= 1, "{cut:x?} {call}");
    let with = |more: u64| eof(lex(&[cut, &vec![0; more as usize]].concat(), 0, call));
    for more in [1, missing / 2, missing - 1].into_iter().filter(|more| *more < missing) {
        assert_eq!(with(more), Some((position, missing - more)), "{cut:x?} {call} and {more}");
    }
    if let Some((then, _)) = with(missing) {
        let more_follows = match call {
            Call::ReadToken => cut.len() < 2 || pieces_after(cut, 2),
            Call::ReadString | Call::ReadRgb => true,
            Call::SkipContainer => then > position || pieces_after(cut, position as usize),
            _ => false,
        };
        assert!(more_follows, "{cut:x?} {call}");
    }
    true
}

/// Whether the id before a place has more than one piece after it.
fn pieces_after(cut: &[u8], place: usize) -> bool {
    let id = place.checked_sub(2).and_then(|at| cut.get(at..place));
    id.is_some_and(|id| !matches!(payload(u16::from_le_bytes([id[0], id[1]])), Payload::Bytes(_)))
}

/// The operation after all of the others.
fn last(source: &Source, ops: &[Op]) -> Got {
    let mut window = Window::new(source);
    let got = ops.iter().map(|op| window.call(*op).expect("an operation of the original"));
    got.last().expect("an operation")
}

fn missed(got: Got) -> Option<(usize, usize)> {
    match got {
        Got::Refused { code: code::EOF, position, missing } => Some((position, missing)),
        _ => None,
    }
}

/// The count asked for, less the window after the reads.
#[test]
fn windows() {
    let slice = Source::slice(vec![9, 0, 7]);
    let stream = |schedule: &[u32]| Source::stream(vec![0; 8], vec![9, 0, 7], schedule.to_vec());
    let cases = [
        (Op::Ensure(5), Some((0, 2))),
        (Op::Peek(8), Some((0, 5))),
        (Op::Take(4), Some((0, 1))),
        (Op::TryTake(4), Some((0, 1))),
        (Op::TakeBytes(5), Some((0, 2))),
        (Op::TryTakeBytes(5), Some((0, 2))),
        (Op::ReadLexemeId, None),
        (Op::Take(3), None),
    ];
    for (op, expected) in cases {
        for source in [slice.clone(), stream(&[]), stream(&[1, 1]), stream(&[3, 0])] {
            assert_eq!(missed(last(&source, &[op])), expected, "{op}");
        }
    }
    for op in [Op::Peek(usize::MAX), Op::Take(usize::MAX), Op::TryTakeBytes(usize::MAX), Op::Ensure(usize::MAX)] {
        assert_eq!(missed(last(&slice, &[op])), Some((0, usize::MAX - 3)), "{op}");
    }
    assert_eq!(missed(last(&stream(&[2, 0]), &[Op::Ensure(5)])), Some((0, 3)), "a read that gives nothing");
    for op in [Op::ReadLexemeId, Op::PeekLexemeId, Op::ReadBstr] {
        assert_eq!(missed(last(&slice, &[Op::Take(2), op])), Some((2, 1)), "{op}");
    }
    for op in [Op::ReadLexemeId, Op::ReadBstr] {
        assert_eq!(missed(last(&slice, &[Op::Take(3), op])), Some((3, 2)), "{op}");
    }
    for source in [slice.clone(), Source { buffer: vec![0; 16], ..stream(&[]) }] {
        assert_eq!(missed(last(&source, &[Op::ReadBstr])), Some((0, 8)), "a text of nine bytes, of which one is there");
    }
}

/// Through a window each id of a colour is a piece of its own, and so is each number.
#[test]
fn colours_through_windows() {
    let whole = bytes("0300 140001000000 140002000000 140003000000 140004000000 0400");
    let ends = [2, 4, 8, 10, 14, 16, 20, 22, 26, 28];
    for len in 0..whole.len() {
        let start = ends.into_iter().rfind(|end| *end <= len).unwrap_or(0);
        let end = ends.into_iter().find(|end| *end > len).expect("a piece that is cut");
        let supply = whole[..len].to_vec();
        for source in [Source::slice(supply.clone()), Source::stream(vec![0; 4], supply, vec![1, 3])] {
            assert_eq!(missed(last(&source, &[Op::ReadRgb])), Some((start, end - len)), "{len}");
        }
    }
}
