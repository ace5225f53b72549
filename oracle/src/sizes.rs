//! The sizes for which the original's tables are compiled, and the choice of one at run time.

pub const BLOCK_SLOTS: [usize; 12] = [1, 2, 3, 4, 5, 6, 8, 12, 33, 64, 256, 1024];
pub const HEAD_SLOTS: [usize; 7] = [2, 3, 4, 5, 8, 16, 64];

/// `by_n!(n, N => body)` is the body with N as the constant of value n, one of `BLOCK_SLOTS`.
macro_rules! by_n {
    ($n:expr, $N:ident => $body:expr) => {
        $crate::sizes::by_size!($n, $N => $body; 1 2 3 4 5 6 8 12 33 64 256 1024)
    };
}

/// `by_m!(m, M => body)` is the same with M, one of `HEAD_SLOTS`.
macro_rules! by_m {
    ($m:expr, $M:ident => $body:expr) => {
        $crate::sizes::by_size!($m, $M => $body; 2 3 4 5 8 16 64)
    };
}

macro_rules! by_size {
    ($size:expr, $N:ident => $body:expr; $($known:literal)*) => {
        match $size {
            $($known => {
                const $N: usize = $known;
                $body
            })*
            other => panic!("the original is not compiled for {other} slots"),
        }
    };
}

pub(crate) use {by_m, by_n, by_size};
