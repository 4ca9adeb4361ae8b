//! The table of contents: of a save, searched, and as a file. A list is numbers, two an entry: its start and its end.

macro_rules! filling {
    ($($(#[$comment:meta])* $name:ident $function:ident,)*) => {
        unsafe extern "C" {
            $(fn $function(
                bytes: *const u8,
                len: usize,
                list: *mut u32,
                list_len: usize,
                answer: *mut u64,
                answer_len: usize,
            ) -> u32;)*
        }

        $($(#[$comment])*
        pub fn $name(bytes: &[u8], list: &mut [u32], answer: &mut [u64]) -> u32 {
            let (lent, numbers, answers, count) = (list.as_mut_ptr(), list.len(), answer.as_mut_ptr(), answer.len());
            // SAFETY: all slices live through the call, and the lent ones are apart from each other and from the bytes.
            unsafe { $function(bytes.as_ptr(), bytes.len(), lent, numbers, answers, count) }
        })*
    };
}

filling! {
    /// Of a save.
    contents stivlaheim_contents,
    /// From a file.
    contents_read stivlaheim_contents_read,
}

unsafe extern "C" {
    fn stivlaheim_contents_search(
        list: *const u32,
        list_len: usize,
        position: u64,
        answer: *mut u64,
        answer_len: usize,
    ) -> u32;
    fn stivlaheim_contents_write(
        list: *const u32,
        list_len: usize,
        out: *mut u8,
        out_len: usize,
        answer: *mut u64,
        answer_len: usize,
    ) -> u32;
}

/// Which entry holds a position.
pub fn contents_search(list: &[u32], position: u64, answer: &mut [u64]) -> u32 {
    // SAFETY: both slices live through the call, and the lent one is apart from the other.
    unsafe { stivlaheim_contents_search(list.as_ptr(), list.len(), position, answer.as_mut_ptr(), answer.len()) }
}

/// As a file.
pub fn contents_write(list: &[u32], out: &mut [u8], answer: &mut [u64]) -> u32 {
    let (lent, room, answers, count) = (out.as_mut_ptr(), out.len(), answer.as_mut_ptr(), answer.len());
    // SAFETY: all slices live through the call, and the lent ones are apart from each other and from the list.
    unsafe { stivlaheim_contents_write(list.as_ptr(), list.len(), lent, room, answers, count) }
}
