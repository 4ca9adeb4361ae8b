//! What the original does where docs/DIFFERENCES.md says that the port refuses.

use original::{FAST_WINDOW, Fast, next_token_fast, reads_back, spelling, write};
use protocol::Token;
use std::panic::catch_unwind;

#[test]
fn a_long_string_has_the_low_two_bytes_of_its_length() {
    for (length, low) in [(65_536, [0, 0]), (65_537, [1, 0]), (131_071, [0xff, 0xff])] {
        for (token, id) in [(Token::Quoted(vec![7; length]), 0x0f), (Token::Unquoted(vec![7; length]), 0x17)] {
            let written = spelling(&token);
            assert_eq!(written[..4], [id, 0, low[0], low[1]]);
            assert_eq!(written[4..], vec![7; length]);
            assert!(!reads_back(&token, &written));
        }
    }
}

#[test]
fn a_wide_lookup_has_its_low_three_bytes() {
    for number in [1 << 24, (1 << 24) + 7, u32::MAX] {
        assert_eq!(spelling(&Token::Lookup(number)), spelling(&Token::Lookup(number & 0xff_ffff)));
    }
}

#[test]
fn a_reserved_id_is_another_token() {
    let reserved: Vec<u16> = (0..=u16::MAX).filter(|id| !original::is_id(*id)).collect();
    assert_eq!(reserved.len(), 42);
    for id in reserved {
        assert_eq!(spelling(&Token::Id(id)), id.to_le_bytes());
        assert!(!reads_back(&Token::Id(id), &id.to_le_bytes()));
    }
}

#[test]
fn a_write_without_room_leaves_a_part_behind() {
    let mut out = [9; 5];
    assert_eq!(write(&Token::U32(7), &mut out), None);
    assert_eq!(out, [0x14, 0, 7, 0, 0]);
}

#[test]
fn a_short_window_is_taken_or_panics() {
    let held = [9; 8];
    assert_eq!(next_token_fast(held, &[1, 0]), Fast { token: Some((2, 2)), held });
    for window in [&[][..], &[1], &[0x14, 0, 1, 2, 3], &[0x9c, 2, 1, 2, 3, 4, 5, 6, 7], &[0x0f, 0, 1]] {
        assert!(window.len() < FAST_WINDOW);
        assert!(catch_unwind(|| next_token_fast(held, window)).is_err());
    }
}
