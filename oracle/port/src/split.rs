//! get_split.

unsafe extern "C" {
    fn stivlaheim_get_split(bytes: *const u8, len: usize, count: usize, answer: *mut u64, answer_len: usize) -> u32;
}

pub fn split(bytes: &[u8], count: usize, answer: &mut [u64]) -> u32 {
    // SAFETY: both slices live through the call, and the lent one is apart from the other.
    unsafe { stivlaheim_get_split(bytes.as_ptr(), bytes.len(), count, answer.as_mut_ptr(), answer.len()) }
}
