//! A child module of the original's chain_heads.rs: copies of its table, its fields in the common
//! form, the step that the scope document adds to admit, and what a head screen is made of.

use super::{ChainHeadEntry, ChainHeadsTable};
use crate::blocks::{BlockTable, NONE_REF};
use crate::calls::Row;
use station::Parts;

impl Clone for ChainHeadEntry {
    fn clone(&self) -> ChainHeadEntry {
        ChainHeadEntry { ..*self }
    }
}

impl<const M: usize> ChainHeadsTable<M> {
    pub(crate) fn boxed() -> Box<ChainHeadsTable<M>> {
        let mut room = Box::new_uninit();
        ChainHeadsTable::init(&mut room);
        // SAFETY: `init` has written every slot, which is all that the table holds.
        unsafe { room.assume_init() }
    }

    pub(crate) fn empty(&mut self) {
        self.heads.iter_mut().for_each(|entry| *entry = ChainHeadEntry::new_empty());
    }

    /// The original's `refresh_head`, in slot order, for each stored head whose cached tail is
    /// occupied and has a parent.
    pub(crate) fn refresh_tails<const N: usize>(&mut self, blocks: &BlockTable<N>) {
        for slot in 0..M {
            let tail = self.stored_head_tail(slot).and_then(|tail| blocks.get(tail));
            if tail.is_some_and(|tail| tail.parent_ref() != NONE_REF) {
                self.refresh_head(blocks, self.heads[slot].head_idx);
            }
        }
    }

    /// The slot and the tip of each head in use.
    pub(crate) fn tips(&self) -> impl Iterator<Item = (usize, u32)> {
        let all = self.heads.iter().map(|head| head.head_idx).enumerate();
        all.filter(|(_, tip)| *tip != NONE_REF)
    }

    /// The record of a head whose tip has this sequence.
    pub(crate) fn row(&self, slot: usize, sequence: u32) -> Row {
        let head = &self.heads[slot];
        let (kind, anchor) = (u32::from(head.is_connected()), head.tail_or_connection_idx);
        Row { tip: head.head_idx, sequence, kind, anchor }
    }

    pub(crate) fn restore(&mut self, from: &ChainHeadsTable<M>) {
        self.heads.clone_from_slice(&from.heads);
    }

    pub(crate) fn show(&self, t: &mut Parts) {
        for entry in &self.heads {
            t.tips.push(entry.head_idx);
            t.tails.push(entry.tail_or_connection_idx);
            t.missing.extend(entry.missing_parent_hash);
            t.requested.push(entry.last_request_timestamp);
            t.arrivals.push(entry.arrival_timestamp);
            t.connected.push(entry.flags);
        }
    }
}

pub(crate) const HEAD_BYTES: usize = size_of::<ChainHeadEntry>();
