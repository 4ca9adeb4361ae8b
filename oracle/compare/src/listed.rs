//! Where the port differs from the original on purpose.

use crate::offsets::Placed;
use crate::run::Run;
use crate::subjects::{Fast, Lex, Sequence, Text, Write};
use protocol::{Call, Numbers, Op, Source, Spelling, Token, code};

#[derive(Clone, Copy, Debug, PartialEq, Eq)]
pub enum Listed {
    OffsetTooLarge,
    CursorPastInput,
    TextPastInput,
    BadTextPlace,
    LongString,
    WideLookup,
    ReservedId,
    NoRoom,
    ShortWindow,
    BadSourceState,
}

impl Listed {
    pub const ALL: [Listed; 10] = [
        Listed::OffsetTooLarge,
        Listed::CursorPastInput,
        Listed::TextPastInput,
        Listed::BadTextPlace,
        Listed::LongString,
        Listed::WideLookup,
        Listed::ReservedId,
        Listed::NoRoom,
        Listed::ShortWindow,
        Listed::BadSourceState,
    ];

    /// As docs/DIFFERENCES.md has it.
    pub fn name(self) -> &'static str {
        match self {
            Listed::OffsetTooLarge => "offset-too-large",
            Listed::CursorPastInput => "cursor-past-input",
            Listed::TextPastInput => "text-past-input",
            Listed::BadTextPlace => "bad-text-place",
            Listed::LongString => "long-string",
            Listed::WideLookup => "wide-lookup",
            Listed::ReservedId => "reserved-id",
            Listed::NoRoom => "no-room",
            Listed::ShortWindow => "short-window",
            Listed::BadSourceState => "bad-source-state",
        }
    }

    /// The one behind a cursor that does not fit; the offset is looked at first.
    #[inline]
    pub fn of_cursor(bytes: &[u8], at: usize, offset: usize) -> Option<Listed> {
        if offset > usize::MAX - bytes.len() {
            return Some(Listed::OffsetTooLarge);
        }
        (at > bytes.len()).then_some(Listed::CursorPastInput)
    }

    /// The one behind an answer that has an output.
    pub fn of_writing(code: u32) -> Option<Listed> {
        match code {
            code::BAD_PLACE => Some(Listed::BadTextPlace),
            code::LONG_STRING => Some(Listed::LongString),
            code::WIDE_LOOKUP => Some(Listed::WideLookup),
            code::RESERVED_ID => Some(Listed::ReservedId),
            code::NO_ROOM => Some(Listed::NoRoom),
            _ => None,
        }
    }

    fn why(self) -> &'static str {
        match self {
            Listed::OffsetTooLarge => "the original's input is the whole file",
            Listed::CursorPastInput => "the original's cursor is the rest of its slice and cannot be past it",
            Listed::TextPastInput => "the original's token holds its text and cannot name bytes that are not there",
            Listed::BadTextPlace => "the original's token holds its text and is always written",
            Listed::LongString => "the original writes the low two bytes of the length, and all of the text",
            Listed::WideLookup => "the original writes the low three bytes",
            Listed::ReservedId => "the original writes the id, which reads as another token",
            Listed::NoRoom => "the original writes what fits, and fails",
            Listed::ShortWindow => "the original's caller does not take the step; if taken, it may panic",
            Listed::BadSourceState => "the original's source keeps its own numbers, and they fit",
        }
    }
}

/// Shows each by an input.
pub fn show(run: &mut Run) {
    for listed in Listed::ALL {
        println!("listed difference {}: {}", listed.name(), listed.why());
        match listed {
            Listed::OffsetTooLarge => run.show(listed, &Lex::new(&[1, 2], 9, Call::ReadId).at_offset(usize::MAX - 1)),
            Listed::CursorPastInput => run.show(listed, &Lex::new(&[1, 2], 9, Call::ReadId)),
            Listed::TextPastInput => run.show(listed, &Text::new(&[1, 2], 1, 2)),
            Listed::BadTextPlace => {
                run.show(listed, &Write::new(Spelling::Normal, &[], 7, &[0, 1, 0, 0, 0], 5));
            }
            Listed::LongString => written(run, listed, &Token::Quoted(vec![0; 65_536]), 65_540),
            Listed::WideLookup => written(run, listed, &Token::Lookup(1 << 24), 5),
            Listed::ReservedId => written(run, listed, &Token::Id(1), 2),
            Listed::NoRoom => written(run, listed, &Token::U32(7), 5),
            Listed::ShortWindow => {
                run.show(listed, &Fast::new(&[0; 8], &[]));
                run.show(listed, &Fast::new(&[0; 8], &[1, 0]));
            }
            Listed::BadSourceState => bad_source_states().iter().for_each(|case| run.show(listed, case)),
        }
    }
}

fn written(run: &mut Run, listed: Listed, token: &Token, room: usize) {
    run.show(listed, &Write::token(Spelling::Normal, token, room));
}

/// Each number that does not fit, in the order in which they are looked at.
fn bad_source_states() -> [Sequence; 5] {
    let states =
        [[1, 0, 0, 0, 0, 1], [0, 1, 0, 0, 0, 1], [0, 0, 2, 0, 0, 1], [0, 0, 0, 1, 0, 1], [0, 0, 0, 0, u64::MAX, 1]];
    states.map(|words| {
        let given = Some(Numbers::of_words(words));
        let source = Source::stream(Vec::new(), vec![7], Vec::new());
        Sequence::new(Source { given, ..source }, vec![Op::WindowLen])
    })
}
