//! All saves of few tokens: their keys, from every cursor and at every cut, their dump, what is rescued at every cut, and
//! their contents, searched at every position.

use super::contents::{every_position, filled};
use super::rescuing::with_more_room;
use super::whole::one_dump;
use crate::offsets::at_some;
use crate::run::Run;
use crate::subjects::Find;

/// Both ends of a container, Equal, two plain ids, a value and a colour.
const TOKENS: [&[u8]; 7] = [
    &[3, 0],
    &[4, 0],
    &[1, 0],
    &[1, 0x28],
    &[2, 0x28],
    &[0x0e, 0, 1],
    &[0x43, 2, 3, 0, 0x14, 0, 1, 0, 0, 0, 0x14, 0, 2, 0, 0, 0, 0x14, 0, 3, 0, 0, 0, 4, 0],
];
const IDS: [u16; 2] = [0x2801, 0x2802];
const MOST: usize = 5;

pub fn few_tokens(run: &mut Run) {
    run.shared("saves of few tokens, by their first", TOKENS.into_iter(), |run, first| {
        each_from(&mut first.to_vec(), 1, &mut |bytes| one(run, bytes));
    });
}

/// So many tokens, and all that begin with them.
fn each_from(bytes: &mut Vec<u8>, count: usize, check: &mut impl FnMut(&[u8])) {
    check(bytes);
    if count == MOST {
        return;
    }
    for token in TOKENS {
        let len = bytes.len();
        bytes.extend(token);
        each_from(bytes, count + 1, check);
        bytes.truncate(len);
    }
}

fn one(run: &mut Run, bytes: &[u8]) {
    one_dump(run, bytes);
    filled(run, bytes);
    every_position(run, bytes);
    for len in 0..=bytes.len() {
        with_more_room(run, &bytes[..len]);
    }
    for id in IDS {
        for at in 0..=bytes.len() + 1 {
            at_some(run, &Find::new(bytes, at, id));
        }
        for len in 0..bytes.len() {
            at_some(run, &Find::new(&bytes[..len], 0, id));
        }
    }
}

#[cfg(test)]
mod tests {
    use super::{IDS, each_from};
    use crate::case::Case;
    use crate::contents::entries;
    use crate::subjects::Find;
    use protocol::{Answer, code};

    /// A caller's loop over the original's tokens, which is measured and answers the examples, and what is expected.
    #[test]
    fn a_loop_finds_the_keys() {
        let mut found = 0;
        each_from(&mut Vec::new(), 0, &mut |bytes| {
            for id in IDS {
                for at in 0..=bytes.len() {
                    let expected = Find::new(bytes, at, id).expected().answer();
                    assert_eq!(original::find_key(bytes, at, id), Some(expected), "{bytes:x?} {at} {id:#x}");
                    found += usize::from(expected.code == code::ANSWERED);
                }
            }
        });
        assert!(found > 1000, "{found}");
    }
    /// The same of the entries, in a list that has room for them.
    #[test]
    fn a_loop_lists_the_entries() {
        let mut found = 0;
        each_from(&mut Vec::new(), 0, &mut |bytes| {
            let mut list = vec![[7, 7]; bytes.len() / 4];
            let answer = original::contents(bytes, &mut list);
            let expected = entries(bytes).expect("tokens that read");
            assert_eq!(answer, Answer::found(expected.len(), &[]), "{bytes:x?}");
            assert_eq!(list[..expected.len()], expected, "{bytes:x?}");
            assert!(list[expected.len()..].iter().all(|record| *record == [7, 7]), "{bytes:x?}");
            found += expected.len();
        });
        assert!(found > 1000, "{found}");
    }
}
