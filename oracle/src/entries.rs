//! The C entry points of the port's static libraries, declared and called. A slice passes as its
//! pointer and its length; `[blocks]` is the buffers of the blocks in their order, and `[all]` those
//! of the blocks and of the heads, each as one that may be written.

/// Declares entry points as the port does, as in `name([all], u32, [u8], [mut u8]) -> u32`.
macro_rules! entries {
    ($($name:ident($($given:tt),*) $(-> $answer:ty)?;)*) => {
        $($crate::entries::entries!($name () ($($answer)?) $($given)*);)*
    };
    ($name:ident ($($done:ty,)*) $answer:tt [all] $($rest:tt)*) => {
        $crate::entries::entries!($name ($($done,)*) $answer [blocks]
            [mut u32] [mut u32] [mut u8] [mut u64] [mut u64] [mut u8] $($rest)*);
    };
    ($name:ident ($($done:ty,)*) $answer:tt [blocks] $($rest:tt)*) => {
        $crate::entries::entries!($name ($($done,)*) $answer
            [mut u8] [mut u32] [mut u32] [mut u8] [mut u8] $($rest)*);
    };
    ($name:ident ($($done:ty,)*) $answer:tt [mut $item:ty] $($rest:tt)*) => {
        $crate::entries::entries!($name ($($done,)* *mut $item, usize,) $answer $($rest)*);
    };
    ($name:ident ($($done:ty,)*) $answer:tt [$item:ty] $($rest:tt)*) => {
        $crate::entries::entries!($name ($($done,)* *const $item, usize,) $answer $($rest)*);
    };
    ($name:ident ($($done:ty,)*) $answer:tt $word:ident $($rest:tt)*) => {
        $crate::entries::entries!($name ($($done,)* $word,) $answer $($rest)*);
    };
    ($name:ident ($($done:ty,)*) ($($answer:ty)?)) => {
        unsafe extern "C" {
            fn $name($(_: $done),*) $(-> $answer)?;
        }
    };
}

/// `call!(name([all t], word, [slice], [mut slice]))` calls an entry point in the same way; t names
/// the tables.
macro_rules! call {
    ($entry:ident($($given:tt),*)) => { $crate::entries::call!($entry () $($given)*) };
    ($entry:ident ($($done:expr,)*) [all $t:ident] $($rest:tt)*) => {
        $crate::entries::call!($entry ($($done,)*) [blocks $t]
            [mut $t.tips] [mut $t.tails] [mut $t.missing] [mut $t.requested] [mut $t.arrivals]
            [mut $t.connected] $($rest)*)
    };
    ($entry:ident ($($done:expr,)*) [blocks $t:ident] $($rest:tt)*) => {
        $crate::entries::call!($entry ($($done,)*)
            [mut $t.hashes] [mut $t.parents] [mut $t.sequences] [mut $t.counts] [mut $t.flags]
            $($rest)*)
    };
    ($entry:ident ($($done:expr,)*) [mut $slice:expr] $($rest:tt)*) => {
        $crate::entries::call!($entry ($($done,)* $slice.as_mut_ptr(), $slice.len(),) $($rest)*)
    };
    ($entry:ident ($($done:expr,)*) [$slice:expr] $($rest:tt)*) => {
        $crate::entries::call!($entry ($($done,)* $slice.as_ptr(), $slice.len(),) $($rest)*)
    };
    ($entry:ident ($($done:expr,)*) $word:tt $($rest:tt)*) => {
        $crate::entries::call!($entry ($($done,)* $word,) $($rest)*)
    };
    // SAFETY: the entry point is declared as the port has it, keeps no slice, and reads and writes
    // within the lengths.
    ($entry:ident ($($done:expr,)*)) => { unsafe { $entry($($done),*) } };
}

pub(crate) use {call, entries};
