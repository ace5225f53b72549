//! A child module of the original's branch_value.rs: its rank, and a stand-in for the view of a
//! block's bytes that the file names.

use super::Rank;
use crate::tables::{Hash, Tables};

/// Whether the first value, length and hash win over the second.
pub fn outranks(_: &Tables, first: (u64, u16, Hash), second: (u64, u16, Hash)) -> bool {
    let rank = |(value, len, hash)| Rank { value, len, hash };
    rank(first).outranks(&rank(second))
}

pub(crate) mod moonblokz_chain_types {
    use std::marker::PhantomData;

    pub(crate) struct BlockView<'a>(PhantomData<&'a ()>);

    impl BlockView<'_> {
        pub(crate) fn consumed_votes(&self) -> u32 {
            0
        }
    }
}
