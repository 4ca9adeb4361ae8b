//! The table of contents as FORMAT.md words it, from the original's tokens; its file, and what is in order.

use crate::keys::keys;
use protocol::{Answer, Span, Token, code};

/// Each entry of a save runs from its key to the next one, or to the save's end. A save that cannot be read has none.
pub fn entries(bytes: &[u8]) -> Result<Vec<Span>, Answer> {
    let tokens = tokens(bytes)?;
    let starts: Vec<u32> = keys(&tokens).map(|(key, _)| place(*key)).collect();
    let ends = starts.iter().copied().skip(1).chain([place(bytes.len())]);
    Ok(starts.iter().copied().zip(ends).map(|(start, end)| [start, end]).collect())
}

/// The number of the entry that holds a position, by a walk over the save alone: the last key at or before it tells.
/// None before the first key and from the save's end on.
pub fn holding(bytes: &[u8], position: u64) -> Result<Option<usize>, Answer> {
    let tokens = tokens(bytes)?;
    let before = keys(&tokens).filter(|(key, _)| *key as u64 <= position).count();
    Ok(if position < bytes.len() as u64 { before.checked_sub(1) } else { None })
}

fn tokens(bytes: &[u8]) -> Result<Vec<(usize, Token)>, Answer> {
    match original::tokens(bytes) {
        (tokens, end) if end.code == code::ANSWERED => Ok(tokens),
        (_, end) => Err(end.handed_on(0)),
    }
}

fn place(place: usize) -> u32 {
    u32::try_from(place).expect("a place in a save that is not too long")
}

/// The entries of a list, two numbers each; nothing where it is out of order: where numbers do not make entries, or an
/// entry does not start below its end, or does not end where the next one starts.
pub fn in_order(numbers: &[u32]) -> Option<&[Span]> {
    let (list, odd) = numbers.as_chunks::<2>();
    let each = list.iter().all(|[start, end]| start < end);
    let joined = list.windows(2).all(|beside| beside[0][1] == beside[1][0]);
    (odd.is_empty() && each && joined).then_some(list)
}

/// The first number of entries that is too many for a file: its bytes, eight for each, are no count of 32 bits.
pub const TOO_MANY: usize = 536_870_912;

/// The version, the number of bytes that follow, and start and end of each entry, all numbers big-endian.
pub fn file(list: &[Span]) -> Vec<u8> {
    let count = u32::try_from(8 * list.len()).expect("fewer entries than are too many");
    let numbers = list.iter().flatten().flat_map(|number| big_endian(*number));
    [1].into_iter().chain(big_endian(count)).chain(numbers).collect()
}

pub fn file_len(list: &[Span]) -> usize {
    1 + 4 + 8 * list.len()
}

fn big_endian(number: u32) -> [u8; 4] {
    [24, 16, 8, 0].map(|bits| (number >> bits) as u8)
}

/// The list that a file holds; nothing where the version, the count of bytes or the order is wrong.
pub fn list_of(file: &[u8]) -> Option<Vec<Span>> {
    let [1, a, b, c, d, rest @ ..] = file else {
        return None;
    };
    let (bytes, odd) = rest.as_chunks::<8>();
    if !odd.is_empty() || number([*a, *b, *c, *d]) as usize != rest.len() {
        return None;
    }
    let numbers: Vec<u32> =
        bytes.iter().flat_map(|&[a, b, c, d, e, f, g, h]| [number([a, b, c, d]), number([e, f, g, h])]).collect();
    in_order(&numbers).map(<[Span]>::to_vec)
}

fn number(bytes: [u8; 4]) -> u32 {
    bytes.into_iter().fold(0, |number, byte| number << 8 | u32::from(byte))
}

#[cfg(test)]
mod tests {
    use super::{entries, file, file_len, holding, in_order, list_of};
    use protocol::{Answer, Span, code, unhex};

    fn bytes(hex: &str) -> Vec<u8> {
        unhex(&hex.replace(' ', "")).unwrap_or_else(|| panic!("{hex} is no hex"))
    }

    /// What stands before the first key is in no entry; strays, containers and values are in the one they stand in.
    const SAVES: [(&str, &[Span]); 12] = [
        ("-", &[]),
        ("0128", &[]),
        ("0128 0100", &[[0, 4]]),
        ("0128 0100 0128 0100", &[[0, 4], [4, 8]]),
        ("0128 0300 0400", &[[0, 6]]),
        ("0400 0128 0100 0300 0228 0100 0400 0400 0128 0300 0400 0400", &[[2, 16], [16, 24]]),
        ("0228 0e0001 0128 0100 0e0000 0228", &[[5, 14]]),
        ("0128 0100 0228 0300 0400 0328 0300 0400", &[[0, 10], [10, 16]]),
        ("0300 0128 0100 0400", &[]),
        ("0400 0400 0128 0100 0400 0400", &[[4, 12]]),
        ("0e0001 0100 0f00 0200 0100 0100", &[[0, 5], [5, 13]]),
        ("0128 0100 4302 0300 140001000000 140002000000 140003000000 0400 0300 0400 0228 0300", &[[0, 32], [32, 36]]),
    ];

    #[test]
    fn entries_of_saves() {
        for (save, list) in SAVES {
            let save = bytes(save);
            assert_eq!(entries(&save).as_deref(), Ok(list), "{save:x?}");
            assert_eq!(in_order(list.as_flattened()), Some(list), "{save:x?}");
        }
    }

    /// The walk and the list say the same of every position.
    #[test]
    fn the_entry_that_holds_a_position() {
        for (save, list) in SAVES {
            let save = bytes(save);
            let positions = (0..save.len() as u64 + 3).flat_map(|at| [at, (1 << 32) + at]).chain([u64::MAX]);
            for position in positions {
                let by_list =
                    list.iter().position(|[start, end]| (u64::from(*start)..u64::from(*end)).contains(&position));
                assert_eq!(holding(&save, position), Ok(by_list), "{save:x?} {position}");
            }
        }
        let save = bytes(SAVES[5].0);
        let held: Vec<Option<usize>> = [0, 1, 2, 3, 15, 16, 23, 24, 25].map(|at| holding(&save, at).unwrap()).to_vec();
        assert_eq!(held, [None, None, Some(0), Some(0), Some(0), Some(1), Some(1), None, None]);
    }

    #[test]
    fn a_save_that_cannot_be_read_has_none() {
        let (eof, rgb) = (bytes("0128 0100 0f00 02"), bytes(&format!("0128 0100 4302 {}", "00".repeat(22))));
        for (save, refused) in [(eof, Answer::eof(0, 4, 1)), (rgb, Answer::refused(code::INVALID_RGB, 0, 4))] {
            assert_eq!(entries(&save), Err(refused));
            assert_eq!(holding(&save, 0), Err(refused));
        }
    }

    #[test]
    fn lists_in_order_and_out_of_order() {
        let most = u32::MAX;
        for list in [&[][..], &[0, 1], &[0, most], &[most - 1, most], &[2, 16, 16, 24], &[0, 1, 1, 2, 2, most]] {
            assert_eq!(in_order(list).map(<[Span]>::as_flattened), Some(list));
        }
        let empty_or_backward = [&[0, 0][..], &[1, 0], &[most, 0], &[1, 2, 2, 2], &[1, 2, 2, 1], &[2, 2, 2, 3]];
        let gap_or_overlap = [&[1, 2, 3, 4][..], &[1, 3, 2, 4], &[0, 1, 1, 2, 3, 4], &[2, 4, 0, 2], &[0, 2, 0, 2]];
        let odd = [&[0][..], &[0, 1, 1], &[0, 1, 1, 2, 2]];
        for list in empty_or_backward.into_iter().chain(gap_or_overlap).chain(odd) {
            assert_eq!(in_order(list), None, "{list:?}");
        }
    }

    /// The page's example, no entries, and the largest numbers.
    #[test]
    fn files() {
        let cases = [
            ("01 00000010 00000002 00000010 00000010 00000018", &[[2, 16], [16, 24]][..]),
            ("01 00000000", &[]),
            ("01 00000008 01020304 fffefdfc", &[[0x0102_0304, 0xfffe_fdfc]]),
        ];
        for (written, list) in cases {
            assert_eq!(file(list), bytes(written));
            assert_eq!(file_len(list), bytes(written).len());
            assert_eq!(list_of(&bytes(written)).as_deref(), Some(list), "{written}");
        }
    }

    #[test]
    fn files_that_are_wrong() {
        let cases = [
            "-",
            "01",
            "01 000000",
            "00 00000000",
            "02 00000000",
            "01 00000001",
            "01 00000008",
            "01 00000000 00",
            "01 00000009 00000002 00000010 00",
            "01 00000004 00000002",
            "01 00000007 00000002 000000",
            "01 10000000 00000002 00000010",
            "01 08000000 00000002 00000010",
            "01 00000010 00000002 00000010",
            "01 00000008 00000002 00000010 00000010 00000018",
            "01 00000008 00000002 00000002",
            "01 00000008 00000003 00000002",
            "01 00000010 00000002 00000010 00000011 00000018",
            "01 00000010 00000002 00000010 0000000f 00000018",
        ];
        for written in cases {
            assert_eq!(list_of(&bytes(written)), None, "{written}");
        }
    }
}
