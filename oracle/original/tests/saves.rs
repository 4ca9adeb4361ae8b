//! The saves that are made up are what they are meant to be, by the original: else much is compared for nothing.

use protocol::{Token, code};
use saves::{Flavour, Payload, Plan, RESERVED, Rng, bare, narrow, payload, save, token};

/// Some saves of a flavour, short and long.
fn saves_of(flavour: Flavour) -> impl Iterator<Item = Vec<u8>> {
    let mut rng = Rng::new(7);
    (0..200).map(move |at| save(Plan { flavour, size: 10 * at, longest_text: 20 }, &mut rng))
}

fn bare_saves_of(flavour: Flavour) -> impl Iterator<Item = Vec<u8>> {
    let mut rng = Rng::new(8);
    saves_of(flavour).map(move |bytes| bare(&bytes, &mut rng))
}

#[test]
fn the_table_has_the_reserved_ids() {
    for id in 0..=u16::MAX {
        assert_eq!(RESERVED.contains(&id), !original::is_id(id), "{id:#06x}");
    }
}

#[test]
fn a_token_is_one_token() {
    let mut rng = Rng::new(7);
    for id in 0..=u16::MAX {
        let bytes = token(&mut rng, id, 8);
        let answer = original::count_tokens(&bytes);
        assert_eq!((answer.code, answer.words[1]), (code::ANSWERED, 1), "{id:#06x}");
        if let Payload::Bytes(count) = payload(id) {
            assert_eq!(bytes.len(), 2 + count, "{id:#06x}");
        }
    }
}

#[test]
fn every_token_of_a_save_reads_and_its_containers_balance() {
    for flavour in Flavour::ALL {
        for bytes in saves_of(flavour).chain(bare_saves_of(flavour)) {
            assert_eq!(original::count_tokens(&bytes).code, code::ANSWERED, "{flavour:?}");
            let closed = original::skip_container(&[&bytes[..], &[4, 0]].concat());
            assert_eq!((closed.code, closed.words[0]), (code::ANSWERED, bytes.len() as u64 + 2), "{flavour:?}");
        }
    }
}

#[test]
fn a_narrow_save_has_a_normal_form() {
    for flavour in Flavour::ALL {
        for mut bytes in saves_of(flavour) {
            narrow(&mut bytes);
            let (tokens, end) = original::tokens(&bytes);
            assert_eq!(end.code, code::ANSWERED, "{flavour:?}");
            for (at, token) in tokens {
                assert!(original::reads_back(&token, &original::spelling(&token)), "{flavour:?}: {token:?} at {at}");
            }
        }
    }
}

/// One letter a token, `a` for a plain id, `c` for a colour and `v` for all other values.
fn letters(bytes: &[u8]) -> String {
    let letter = |(_, token): &(usize, Token)| match token {
        Token::Open => '{',
        Token::Close => '}',
        Token::Equal => '=',
        Token::Id(_) => 'a',
        Token::Rgb(_) => 'c',
        _ => 'v',
    };
    original::tokens(bytes).0.iter().map(letter).collect()
}

/// What a key may stand beside, and what only looks like one, all of it often.
#[test]
fn a_bare_save_has_brackets_after_keys_and_after_values() {
    let saves: Vec<String> = Flavour::ALL.into_iter().flat_map(bare_saves_of).map(|bytes| letters(&bytes)).collect();
    let outside = |text: &str, at: usize| text[..at].matches('{').count() == text[..at].matches('}').count();
    for part in ["a{", "v{", "c{", "=a{", "=v{", "=c{", "a=a{", "a=c", "ac", "aa{", "a{{", "={", "a=={", "c="] {
        let at_depth_0 = |text: &String| text.match_indices(part).any(|(at, _)| outside(text, at));
        let deeper = |text: &String| text.match_indices(part).any(|(at, _)| !outside(text, at));
        let top = saves.iter().filter(|text| at_depth_0(text)).count();
        let inside = saves.iter().filter(|text| deeper(text)).count();
        assert!(top >= 20 && inside >= 20, "{part}: {top} saves at depth 0, {inside} deeper");
    }
}
