//! Ids and kinds, the Lexer's calls, a token's text, and the count of a whole save's tokens.

use protocol::Call;

macro_rules! plain_calls {
    ($($call:ident $name:ident,)*) => {
        unsafe extern "C" {
            $(fn $name(
                bytes: *const u8,
                len: usize,
                at: usize,
                offset: usize,
                answer: *mut u64,
                answer_len: usize,
            ) -> u32;)*
        }

        /// A call that takes no number beside the cursor.
        fn plain(call: Call, bytes: &[u8], at: usize, offset: usize, answer: &mut [u64]) -> u32 {
            let function = match call {
                $(Call::$call => $name,)*
                Call::ReadBytes(_) | Call::SkipValue(_) => unreachable!("{call} is not plain"),
            };
            // SAFETY: both slices live through the call, and the lent one is apart from the other.
            unsafe { function(bytes.as_ptr(), bytes.len(), at, offset, answer.as_mut_ptr(), answer.len()) }
        }
    };
}

plain_calls! {
    ReadId stivlaheim_read_id,
    NextId stivlaheim_next_id,
    PeekId stivlaheim_peek_id,
    ReadToken stivlaheim_read_token,
    NextToken stivlaheim_next_token,
    PeekToken stivlaheim_peek_token,
    ReadString stivlaheim_read_string,
    ReadBool stivlaheim_read_bool,
    ReadLookupU8 stivlaheim_read_lookup_u8,
    ReadLookupU16 stivlaheim_read_lookup_u16,
    ReadLookupU24 stivlaheim_read_lookup_u24,
    ReadLookupU32 stivlaheim_read_lookup_u32,
    ReadU32 stivlaheim_read_u32,
    ReadU64 stivlaheim_read_u64,
    ReadI32 stivlaheim_read_i32,
    ReadI64 stivlaheim_read_i64,
    ReadF32 stivlaheim_read_f32,
    ReadF64 stivlaheim_read_f64,
    ReadRgb stivlaheim_read_rgb,
    SkipContainer stivlaheim_skip_container,
    Remainder stivlaheim_remainder,
    Position stivlaheim_position,
}

unsafe extern "C" {
    safe fn stivlaheim_into_kind(id: u16) -> u32;
    safe fn stivlaheim_is_id(id: u16) -> bool;
    fn stivlaheim_read_bytes(
        bytes: *const u8,
        len: usize,
        at: usize,
        offset: usize,
        count: usize,
        answer: *mut u64,
        answer_len: usize,
    ) -> u32;
    fn stivlaheim_skip_value(
        bytes: *const u8,
        len: usize,
        at: usize,
        offset: usize,
        id: u16,
        answer: *mut u64,
        answer_len: usize,
    ) -> u32;
    fn stivlaheim_find_key(
        bytes: *const u8,
        len: usize,
        at: usize,
        offset: usize,
        id: u16,
        answer: *mut u64,
        answer_len: usize,
    ) -> u32;
    fn stivlaheim_text(
        bytes: *const u8,
        len: usize,
        start: usize,
        text_len: usize,
        answer: *mut u64,
        answer_len: usize,
    ) -> u32;
    fn stivlaheim_count_tokens(bytes: *const u8, len: usize, answer: *mut u64, answer_len: usize) -> u32;
}

pub fn kind(id: u16) -> u32 {
    stivlaheim_into_kind(id)
}

pub fn is_id(id: u16) -> bool {
    stivlaheim_is_id(id)
}

/// From the cursor at a place, in an input that begins at an offset.
pub fn lex(bytes: &[u8], at: usize, offset: usize, call: Call, answer: &mut [u64]) -> u32 {
    let (data, len, words, count) = (bytes.as_ptr(), bytes.len(), answer.as_mut_ptr(), answer.len());
    match call {
        // SAFETY: both slices live through the call, and the lent one is apart from the other.
        Call::ReadBytes(n) => unsafe { stivlaheim_read_bytes(data, len, at, offset, n, words, count) },
        // SAFETY: the same.
        Call::SkipValue(id) => unsafe { stivlaheim_skip_value(data, len, at, offset, id, words, count) },
        _ => plain(call, bytes, at, offset, answer),
    }
}

pub fn find_key(bytes: &[u8], at: usize, offset: usize, id: u16, answer: &mut [u64]) -> u32 {
    // SAFETY: both slices live through the call, and the lent one is apart from the other.
    unsafe { stivlaheim_find_key(bytes.as_ptr(), bytes.len(), at, offset, id, answer.as_mut_ptr(), answer.len()) }
}

pub fn text(bytes: &[u8], start: usize, len: usize, answer: &mut [u64]) -> u32 {
    // SAFETY: both slices live through the call, and the lent one is apart from the other.
    unsafe { stivlaheim_text(bytes.as_ptr(), bytes.len(), start, len, answer.as_mut_ptr(), answer.len()) }
}

pub fn count_tokens(bytes: &[u8], answer: &mut [u64]) -> u32 {
    // SAFETY: both slices live through the call, and the lent one is apart from the other.
    unsafe { stivlaheim_count_tokens(bytes.as_ptr(), bytes.len(), answer.as_mut_ptr(), answer.len()) }
}
