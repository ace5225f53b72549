//! The archive's entry points, declared as `crates/station/src` defines them, and safe to call: this
//! is the crate's only unsafe code.

#![allow(unsafe_code, clippy::too_many_arguments)]

use crate::records::HeadRow;
use core::mem::offset_of;

/// The caller's record, which fresh and promote write.
#[repr(C)]
pub(crate) struct ActiveHead {
    pub slot: u32,
}

// The archive's layout of a record of the head screen.
const _: () = {
    assert!(size_of::<HeadRow>() == 16 && align_of::<HeadRow>() == 4);
    assert!(offset_of!(HeadRow, tip) == 0 && offset_of!(HeadRow, sequence) == 4);
    assert!(offset_of!(HeadRow, kind) == 8 && offset_of!(HeadRow, anchor) == 12);
};

/// Declares each function with its C types, where a slice is a pointer and a length, and defines a
/// function of the same name that takes Rust's slices.
macro_rules! entries {
    ($(fn $name:ident($($given:tt)*) -> $answer:ty;)*) => {
        $(entries!(@ $name $answer, () () () $($given)*);)*
    };
    (@ $name:ident $answer:ty, ($($rust:tt)*) ($($c:ty,)*) ($($passed:expr,)*)
        $arg:ident: &mut [$item:ty] $(, $($rest:tt)*)?) => {
        entries!(@ $name $answer,
            ($($rust)* $arg: &mut [$item],) ($($c,)* *mut $item, usize,)
            ($($passed,)* $arg.as_mut_ptr(), $arg.len(),) $($($rest)*)?);
    };
    (@ $name:ident $answer:ty, ($($rust:tt)*) ($($c:ty,)*) ($($passed:expr,)*)
        $arg:ident: &[$item:ty] $(, $($rest:tt)*)?) => {
        entries!(@ $name $answer,
            ($($rust)* $arg: &[$item],) ($($c,)* *const $item, usize,)
            ($($passed,)* $arg.as_ptr(), $arg.len(),) $($($rest)*)?);
    };
    (@ $name:ident $answer:ty, ($($rust:tt)*) ($($c:ty,)*) ($($passed:expr,)*)
        $arg:ident: $word:ty $(, $($rest:tt)*)?) => {
        entries!(@ $name $answer,
            ($($rust)* $arg: $word,) ($($c,)* $word,) ($($passed,)* $arg,) $($($rest)*)?);
    };
    (@ $name:ident $answer:ty, ($($rust:tt)*) ($($c:ty,)*) ($($passed:expr,)*)) => {
        pub(crate) fn $name($($rust)*) -> $answer {
            unsafe extern "C" {
                fn $name($(_: $c),*) -> $answer;
            }
            // SAFETY: each pointer comes from a reference with its length, so it is aligned, valid
            // for that many elements and, where written, shared with nobody. The entry point is
            // proved to stay within the lengths and to end, and it keeps no pointer.
            unsafe { $name($($passed),*) }
        }
    };
}

entries! {
    fn station_fresh(
        hashes: &mut [u8], parents: &mut [u32], sequences: &mut [u32], counts: &mut [u8],
        flags: &mut [u8], tips: &mut [u32], tails: &mut [u32], missing: &mut [u8],
        requested: &mut [u64], arrivals: &mut [u64], connected: &mut [u8],
        held: &mut ActiveHead
    ) -> u64;
    fn station_admit(
        hashes: &mut [u8], parents: &mut [u32], sequences: &mut [u32], counts: &mut [u8],
        flags: &mut [u8], tips: &mut [u32], tails: &mut [u32], missing: &mut [u8],
        requested: &mut [u64], arrivals: &mut [u64], connected: &mut [u8],
        active: u32, sequence: u32, hash: &[u8], previous: &[u8], arrival: u64
    ) -> u64;
    fn station_promote(
        hashes: &[u8], parents: &[u32], sequences: &[u32], counts: &[u8],
        flags: &mut [u8], tips: &[u32], tails: &mut [u32], missing: &mut [u8],
        requested: &mut [u64], arrivals: &[u64], connected: &mut [u8],
        held: &mut ActiveHead, slot: u32
    ) -> u64;
    fn station_remove(
        hashes: &mut [u8], parents: &mut [u32], sequences: &mut [u32], counts: &mut [u8],
        flags: &mut [u8], tips: &mut [u32], tails: &mut [u32], missing: &mut [u8],
        requested: &mut [u64], arrivals: &mut [u64], connected: &mut [u8],
        root: u32
    ) -> u64;
    fn station_under(
        hashes: &[u8], parents: &[u32], sequences: &[u32], counts: &[u8],
        flags: &[u8], tips: &[u32], tails: &[u32], missing: &[u8],
        requested: &[u64], arrivals: &[u64], connected: &[u8],
        slot: u32, highest: &mut [u32]
    ) -> u64;
    fn station_screen(
        hashes: &[u8], parents: &[u32], sequences: &[u32], counts: &[u8],
        flags: &[u8], tips: &[u32], tails: &[u32], missing: &[u8],
        requested: &[u64], arrivals: &[u64], connected: &[u8],
        rows: &mut [HeadRow]
    ) -> u64;
    fn station_timer(
        hashes: &[u8], parents: &[u32], sequences: &[u32], counts: &[u8],
        flags: &[u8], tips: &[u32], tails: &[u32], missing: &[u8],
        requested: &mut [u64], arrivals: &[u64], connected: &[u8],
        clock: u64, given: u32, span: u64, claimed: &mut [u32], wanted: &mut [u8]
    ) -> u64;
    fn station_earliest_deadline(
        hashes: &[u8], parents: &[u32], sequences: &[u32], counts: &[u8],
        flags: &[u8], tips: &[u32], tails: &[u32], missing: &[u8],
        requested: &[u64], arrivals: &[u64], connected: &[u8],
        given: u32, span: u64, time: &mut [u64]
    ) -> u64;
    fn station_restart(
        hashes: &mut [u8], parents: &mut [u32], sequences: &mut [u32], counts: &mut [u8],
        flags: &mut [u8], tips: &mut [u32], tails: &mut [u32], missing: &mut [u8],
        requested: &mut [u64], arrivals: &mut [u64], connected: &mut [u8],
        active: u32, clock: u64
    ) -> u64;

    fn station_find(hashes: &[u8], sequences: &[u32], sequence: u32, hash: &[u8]) -> u32;
    fn station_next_free_index(sequences: &[u32]) -> u32;
    fn station_find_parent(
        hashes: &[u8], sequences: &[u32], sequence: u32, previous: &[u8]
    ) -> u32;
    fn station_get(
        hashes: &[u8], parents: &[u32], sequences: &[u32], counts: &[u8], flags: &[u8],
        slot: u32, hash: &mut [u8], words: &mut [u32]
    ) -> u32;
    fn station_head_ref_count(sequences: &[u32], counts: &[u8], slot: u32) -> u32;
    fn station_status(sequences: &[u32], flags: &[u8], slot: u32) -> u32;
    fn station_mark_subtree(
        parents: &[u32], sequences: &[u32], root: u32, out: &mut [u32]
    ) -> u32;
    fn station_walks_to_active_chain(
        parents: &[u32], sequences: &[u32], flags: &[u8], start: u32
    ) -> u32;
    fn station_count(tips: &[u32]) -> u32;
    fn station_has_stored_head(tips: &[u32], connected: &[u8]) -> u32;
    fn station_slot_of_head(tips: &[u32], tip: u32) -> u32;
    fn station_locate_anchor(
        parents: &[u32], sequences: &[u32], flags: &[u8], start: u32
    ) -> u64;
    fn station_outranks(
        value: u64, len: u16, hash: &[u8], value2: u64, len2: u16, hash2: &[u8]
    ) -> u32;
}
