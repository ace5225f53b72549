//! A child module of the original's blocks.rs: copies of its table, and its fields in the common form.

use super::{BlockEntry, BlockTable};
use station::Parts;

impl Clone for BlockEntry {
    fn clone(&self) -> BlockEntry {
        BlockEntry { ..*self }
    }
}

impl<const N: usize> BlockTable<N> {
    pub(crate) fn boxed() -> Box<BlockTable<N>> {
        let mut room = Box::new_uninit();
        BlockTable::init(&mut room);
        // SAFETY: `init` has written every slot, which is all that the table holds.
        unsafe { room.assume_init() }
    }

    pub(crate) fn empty(&mut self) {
        self.blocks.iter_mut().for_each(|entry| *entry = BlockEntry::new_empty());
    }

    pub(crate) fn restore(&mut self, from: &BlockTable<N>) {
        self.blocks.clone_from_slice(&from.blocks);
    }

    pub(crate) fn show(&self, t: &mut Parts) {
        for entry in &self.blocks {
            t.hashes.extend(entry.hash);
            t.parents.push(entry.parent_ref);
            t.sequences.push(entry.sequence);
            t.counts.push(entry.head_ref_count);
            t.flags.push(entry.flags);
        }
    }
}

pub(crate) const BLOCK_BYTES: usize = size_of::<BlockEntry>();
