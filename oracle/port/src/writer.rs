//! The checked writers.

use protocol::Spelling;

macro_rules! functions {
    ($($spelling:pat => $name:ident,)*) => {
        unsafe extern "C" {
            $(fn $name(
                bytes: *const u8,
                len: usize,
                kind: u32,
                words: *const u64,
                words_len: usize,
                out: *mut u8,
                out_len: usize,
                answer: *mut u64,
                answer_len: usize,
            ) -> u32;)*
        }

        /// The token is its kind's number and its value's words; a string's text is a part of the bytes.
        pub fn write(
            spelling: Spelling,
            bytes: &[u8],
            kind: u32,
            words: &[u64],
            out: &mut [u8],
            answer: &mut [u64],
        ) -> u32 {
            let (data, len) = (bytes.as_ptr(), bytes.len());
            let (lent, room, answers, count) = (out.as_mut_ptr(), out.len(), answer.as_mut_ptr(), answer.len());
            let function = match spelling {
                $($spelling => $name,)*
            };
            // SAFETY: all slices live through the call, and the lent ones are apart from each other and from the others.
            unsafe { function(data, len, kind, words.as_ptr(), words.len(), lent, room, answers, count) }
        }
    };
}

functions! {
    Spelling::Normal => stivlaheim_write,
    Spelling::Shortest => stivlaheim_write_shortest,
}
