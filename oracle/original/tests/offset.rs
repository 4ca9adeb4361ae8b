//! What an offset changes in the original's answers: the positions that are told, and nothing else.

use protocol::{Answer, Call, code};

/// A text, a number in a container, a spoilt colour, and a text that is cut short.
const BYTES: [u8; 45] = [
    0x0f, 0, 2, 0, 0x61, 0x62, 3, 0, 0x14, 0, 1, 0, 0, 0, 4, 0, 0x43, 2, 9, 9, 9, 9, 9, 9, 9, 9, 9, 9, 9, 9, 9, 9, 9,
    9, 9, 9, 9, 9, 9, 9, 0x17, 0, 9, 0, 0x63,
];
const OFFSET: usize = 100;

fn both(at: usize, call: Call) -> [Answer; 2] {
    [0, OFFSET].map(|offset| original::lex_in_file(&BYTES, at, offset, call).expect("a place in the input"))
}

#[test]
fn refusals_have_it() {
    for (at, call) in [(40, Call::ReadToken), (40, Call::NextToken), (42, Call::ReadString), (44, Call::ReadId)] {
        let [here, there] = both(at, call);
        assert_eq!((here.code, here.words[1]), (code::EOF, at as u64), "{call}");
        assert_eq!(there.code, code::EOF, "{call}");
        assert_eq!(there.words[..3], [at as u64, (at + OFFSET) as u64, here.words[2]], "{call}");
    }
    let [here, there] = both(16, Call::ReadToken);
    assert_eq!((here.code, here.words[1]), (code::INVALID_RGB, 16));
    assert_eq!((there.code, there.words[0], there.words[1]), (code::INVALID_RGB, 16, 116));
}

/// Its place is not that of the cursor.
#[test]
fn a_refused_skip_has_it() {
    let [here, there] = both(16, Call::SkipContainer);
    assert_eq!((here.code, here.words[0], here.words[1]), (code::EOF, 42, 42));
    assert_eq!(there.words[..3], [42, 142, here.words[2]]);
}

#[test]
fn a_position_has_it() {
    let [here, there] = both(45, Call::Position);
    assert_eq!((here, there), (Answer::found(45, &[45]), Answer::found(45, &[145])));
}

/// Cursors, starts and numbers.
#[test]
fn values_have_it_not() {
    let calls = [(0, Call::ReadToken), (2, Call::ReadString), (10, Call::ReadU32), (6, Call::PeekId)];
    let more = [(40, Call::PeekToken), (45, Call::NextToken), (3, Call::Remainder), (3, Call::ReadBytes(4))];
    for (at, call) in calls.into_iter().chain(more).chain([(8, Call::SkipContainer)]) {
        let [here, there] = both(at, call);
        assert!(matches!(here.code, code::ANSWERED | code::NONE), "{call}");
        assert_eq!(here, there, "{call}");
    }
}

#[test]
fn a_key_has_it() {
    let bytes = [2, 0x28, 1, 0x28, 3, 0, 4, 0, 3];
    let find = |id| original::find_key_in_file(&bytes, 0, OFFSET, id);
    assert_eq!(find(0x2801), Some(Answer::found(0, &[102])));
    assert_eq!(find(0x2802), Some(Answer::eof(0, 108, 1)));
    assert_eq!(original::find_key_in_file(&bytes[..8], 0, OFFSET, 0x2802), Some(Answer::none(0)));
}

#[test]
fn the_end_of_the_input_has_a_position_or_nothing_has() {
    let last = usize::MAX - BYTES.len();
    assert_eq!(original::lex_in_file(&BYTES, 45, last, Call::Position), Some(Answer::found(45, &[u64::MAX])));
    for call in [Call::Position, Call::PeekId, Call::ReadToken] {
        assert_eq!(original::lex_in_file(&BYTES, 0, last + 1, call), None, "{call}");
    }
    assert_eq!(original::find_key_in_file(&BYTES, 0, last + 1, 0x2801), None);
}
