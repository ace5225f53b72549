//! The original's side: its own tables, and the calls put together from its own functions as the
//! scope document says. The shape of its tables is fixed by their type, so no call tests it.

use crate::blocks::{BlockEntry, BlockTable};
use crate::calls::{Asked, Block, Refusal, Row, Side, Under};
use crate::chain_heads::ChainHeadsTable;
use crate::staged_validation::BlockStatus;
use station::{Hash, NONE_REF, Parts};

/// The retry span of a call that gives none.
const TICKS: u64 = 60;

pub struct Rust<const N: usize, const M: usize> {
    blocks: Box<BlockTable<N>>,
    heads: Box<ChainHeadsTable<M>>,
    active: u32,
    rows: [Row; M],
}

impl<const N: usize, const M: usize> Rust<N, M> {
    pub fn new() -> Self {
        Rust {
            blocks: BlockTable::boxed(),
            heads: ChainHeadsTable::boxed(),
            active: NONE_REF,
            rows: [Row::NONE; M],
        }
    }
}

impl<const N: usize, const M: usize> Side for Rust<N, M> {
    #[inline(never)]
    fn fresh(&mut self) -> Result<(), Refusal> {
        self.blocks.empty();
        self.heads.empty();
        self.active = NONE_REF;
        Ok(())
    }

    #[inline(never)]
    fn admit(&mut self, block: &Block) -> Result<u32, Refusal> {
        let hash: Hash = block.hash[..].try_into().map_err(|_| 2)?;
        let previous: Hash = block.previous[..].try_into().map_err(|_| 2)?;
        if block.sequence == NONE_REF {
            return Err(4);
        }
        if hash == [0; 32] {
            return Err(5);
        }
        if self.blocks.find(block.sequence, &hash).is_some() {
            return Err(6);
        }
        let slot = self.blocks.next_free_index().ok_or(7)?;
        let parent = self.blocks.find_parent(&previous, block.sequence);
        let entry = BlockEntry::new(hash, parent.unwrap_or(NONE_REF), block.sequence);
        self.blocks.insert_at(slot, entry);
        let (arrival, active) = (block.arrival, self.active);
        self.heads.on_block_admitted(&mut self.blocks, slot, parent, previous, arrival, active);
        self.heads.refresh_tails(&self.blocks);
        Ok(slot)
    }

    #[inline(never)]
    fn promote(&mut self, slot: u32) -> Result<(), Refusal> {
        let parent = self.blocks.get(slot).ok_or(3)?.parent_ref();
        if self.active != NONE_REF && parent != self.active {
            return Err(8);
        }
        self.blocks.set_on_active_chain(slot, true);
        self.blocks.set_status(slot, BlockStatus::Active);
        self.active = slot;
        self.heads.recompute_all_caches(&self.blocks);
        Ok(())
    }

    #[inline(never)]
    fn remove(&mut self, slot: u32) -> Result<u32, Refusal> {
        let parent = self.blocks.get(slot).ok_or(3)?.parent_ref();
        let mut list = [0; N];
        let freed = self.blocks.mark_subtree(slot, &mut list);
        let slots = &list[..freed];
        let is_active = |&slot| self.blocks.get(slot).is_some_and(BlockEntry::is_on_active_chain);
        if slots.iter().any(is_active) {
            return Err(9);
        }
        for &slot in slots {
            self.blocks.delete(slot);
        }
        self.heads.on_blocks_deleted(&mut self.blocks, slots, parent);
        Ok(freed as u32)
    }

    #[inline(never)]
    fn timer(&mut self, now: u64, span: Option<u64>) -> Result<Option<Asked>, Refusal> {
        let chosen = self.heads.select_parent_recovery(&self.blocks, now, span.unwrap_or(TICKS));
        Ok(chosen.map(|(head, request)| {
            self.heads.mark_requested(head, now);
            Asked { head: head as u32, missing: request.missing, claimed: request.claimed }
        }))
    }

    #[inline(never)]
    fn deadline(&mut self, span: Option<u64>) -> Result<Option<u64>, Refusal> {
        Ok(self.heads.earliest_recovery_deadline(span.unwrap_or(TICKS)))
    }

    #[inline(never)]
    fn restart(&mut self, now: u64) -> Result<(), Refusal> {
        self.heads.empty();
        self.heads.on_blocks_deleted(&mut self.blocks, &[], NONE_REF);
        self.heads.rebuild_from_blocks(&mut self.blocks, now, self.active);
        Ok(())
    }

    /// The original has no such call: this is its list, and the highest sequence in it.
    #[inline(never)]
    fn under(&mut self, slot: u32) -> Result<Under, Refusal> {
        let mut list = [0; N];
        let listed = self.blocks.mark_subtree(slot, &mut list);
        let blocks = list[..listed].iter().filter_map(|&slot| self.blocks.get(slot));
        let highest = blocks.map(BlockEntry::sequence).max().ok_or(3)?;
        Ok(Under { blocks: listed as u32, highest })
    }

    /// Nor has it this one: the keys of the heads in use are collected and sorted.
    #[inline(never)]
    fn screen(&mut self) -> Result<u32, Refusal> {
        let mut keys: Vec<Key> = Vec::with_capacity(M);
        keys.extend(self.heads.tips().map(|(slot, tip)| key(&self.blocks, slot, tip)));
        keys.sort_unstable_by(|a, b| b.0.cmp(&a.0).then_with(|| (a.1, a.2).cmp(&(b.1, b.2))));
        for (row, (sequence, _, slot)) in self.rows.iter_mut().zip(&keys) {
            *row = self.heads.row(*slot, *sequence);
        }
        Ok(keys.len() as u32)
    }

    fn restore(&mut self, from: &Self) {
        self.blocks.restore(&from.blocks);
        self.heads.restore(&from.heads);
        self.active = from.active;
    }

    fn show(&self) -> Parts {
        let mut t = Parts { active: self.active, ..Parts::default() };
        self.blocks.show(&mut t);
        self.heads.show(&mut t);
        t
    }

    fn rows(&self) -> Vec<Row> {
        self.rows.to_vec()
    }
}

/// By what a head stands on the screen: the sequence of its tip, the hash and its own slot.
type Key<'a> = (u32, &'a Hash, usize);

fn key<const N: usize>(blocks: &BlockTable<N>, slot: usize, tip: u32) -> Key<'_> {
    match blocks.get(tip) {
        Some(block) => (block.sequence(), block.hash(), slot),
        None => (NONE_REF, &[0; 32], slot),
    }
}
