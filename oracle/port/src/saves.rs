//! A whole save into a lent output: in normal form, in its shortest spelling, its dump, and what can be rescued of it.

use protocol::Spelling;

macro_rules! functions {
    ($($(#[$comment:meta])* $name:ident $function:ident,)*) => {
        unsafe extern "C" {
            $(fn $function(
                bytes: *const u8,
                len: usize,
                out: *mut u8,
                out_len: usize,
                answer: *mut u64,
                answer_len: usize,
            ) -> u32;)*
        }

        $($(#[$comment])*
        pub fn $name(bytes: &[u8], out: &mut [u8], answer: &mut [u64]) -> u32 {
            let (lent, room, answers, count) = (out.as_mut_ptr(), out.len(), answer.as_mut_ptr(), answer.len());
            // SAFETY: all slices live through the call, and the lent ones are apart from each other and from the bytes.
            unsafe { $function(bytes.as_ptr(), bytes.len(), lent, room, answers, count) }
        })*
    };
}

/// Each token so.
pub fn respell(spelling: Spelling, bytes: &[u8], out: &mut [u8], answer: &mut [u64]) -> u32 {
    match spelling {
        Spelling::Normal => normalise(bytes, out, answer),
        Spelling::Shortest => shorten(bytes, out, answer),
    }
}

functions! {
    normalise stivlaheim_normalise,
    shorten stivlaheim_shorten,
    /// The dump's text.
    list stivlaheim_list,
    /// What can be kept of it, with the Closes that it lacks.
    rescue stivlaheim_rescue,
}
