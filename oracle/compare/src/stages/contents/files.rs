//! Files, of lists and of no lists.

use super::at_every_capacity;
use crate::contents::file;
use crate::run::Run;
use crate::subjects::{Fill, Origin};
use protocol::Span;

/// As of a list in order, whatever the numbers are.
pub fn file_of(list: &[u32]) -> Vec<u8> {
    let numbers = list.iter().flat_map(|number| number.to_be_bytes());
    [1].into_iter().chain((4 * list.len() as u32).to_be_bytes()).chain(numbers).collect()
}

/// Entries in order, cut after so many bytes, which the count says: only a multiple of eight will do.
pub fn of_any_length(run: &mut Run) {
    let list: Vec<Span> = (0..6).map(|start| [start, start + 1]).collect();
    let entries = &file(&list)[5..];
    for len in 0..=entries.len() {
        let file = [&[1][..], &(len as u32).to_be_bytes(), &entries[..len]].concat();
        at_every_capacity(run, Origin::File, &file);
    }
    for version in 0..=u8::MAX {
        let file = [&[version][..], &file(&list)[1..]].concat();
        at_every_capacity(run, Origin::File, &file);
    }
}

/// The most entries of a list whose file is damaged at every place.
const FEW: usize = 8;

/// The list's file with each byte changed, cut short, and lengthened, with and without a list for it.
pub fn damaged_files(run: &mut Run, list: &[Span]) {
    let list = &list[..list.len().min(FEW)];
    let whole = file(list);
    let mut both = |file: &[u8]| {
        run.check(&Fill::new(Origin::File, file, 0));
        run.check(&Fill::new(Origin::File, file, 2 * list.len() + 3));
    };
    for at in 0..whole.len() {
        for change in [1, 2, 8, 0x80, 0xff] {
            let mut file = whole.clone();
            file[at] ^= change;
            both(&file);
        }
        both(&whole[..at]);
    }
    for more in 1..=9 {
        both(&[&whole[..], &vec![0; more]].concat());
    }
    let end = list.last().map_or(0, |[_, end]| *end);
    let entry_more = [end, end + 1].map(u32::to_be_bytes);
    both(&[&whole[..], entry_more.as_flattened()].concat());
}
