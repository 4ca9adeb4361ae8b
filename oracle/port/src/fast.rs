//! The fast step.

unsafe extern "C" {
    fn stivlaheim_next_token_fast(
        window: *const u8,
        len: usize,
        held: *mut u8,
        held_len: usize,
        answer: *mut u64,
        answer_len: usize,
    ) -> u32;
}

#[inline]
pub fn next_token_fast(window: &[u8], held: &mut [u8], answer: &mut [u64]) -> u32 {
    let (lent, room, answers, count) = (held.as_mut_ptr(), held.len(), answer.as_mut_ptr(), answer.len());
    // SAFETY: all slices live through the call, and the lent ones are apart from each other and from the window.
    unsafe { stivlaheim_next_token_fast(window.as_ptr(), window.len(), lent, room, answers, count) }
}
