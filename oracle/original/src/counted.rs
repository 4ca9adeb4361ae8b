//! From a count that is a number to one that is a constant.

/// Every count up to this one is at hand as a constant, and some larger ones.
pub const LARGEST_COUNT: usize = 42;

/// `$body` with the constant `$n` for the count; nothing where it is not at hand.
macro_rules! counted {
    ($count:expr, $n:ident => $body:expr) => {
        $crate::counted::counted!(@ $count, $n, $body;
            0 1 2 3 4 5 6 7 8 9 10 11 12 13 14 15 16 17 18 19 20 21 22 23 24 25 26 27 28 29 30 31 32 33 34 35 36 37 38 39
            40 41 42 63 64 65 255 256 257 0x1000_0000_0000_0000)
    };
    (@ $count:expr, $n:ident, $body:expr; $($k:literal)*) => {
        match $count {
            $($k => {
                const $n: usize = $k;
                Some($body)
            })*
            _ => None,
        }
    };
}

pub(crate) use counted;
