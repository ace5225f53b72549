//! A child module of the original's chain_heads.rs: its functions on the lent buffers, the private
//! ones too. The active head's slot is the one that stands beside the buffers.

use super::{Anchor, ChainHeadEntry, ChainHeadsTable};
use crate::blocks::BlockTable;
use crate::blocks::judged::{load_blocks, store_blocks};
use crate::sizes::{by_m, by_n};
use crate::tables::{Hash, Head, Located, NONE_REF, Recovery, Tables};

fn entry(head: Head) -> ChainHeadEntry {
    ChainHeadEntry {
        head_idx: head.tip,
        tail_or_connection_idx: head.tail,
        missing_parent_hash: head.missing,
        last_request_timestamp: head.requested,
        arrival_timestamp: head.arrival,
        branch_value: 0,
        flags: head.connected,
    }
}

fn head(entry: &ChainHeadEntry) -> Head {
    Head {
        tip: entry.head_idx,
        tail: entry.tail_or_connection_idx,
        missing: entry.missing_parent_hash,
        requested: entry.last_request_timestamp,
        arrival: entry.arrival_timestamp,
        connected: entry.flags,
    }
}

fn load_heads<const M: usize>(t: &Tables) -> Box<ChainHeadsTable<M>> {
    let mut room = Box::<ChainHeadsTable<M>>::new_uninit();
    let table = ChainHeadsTable::init(&mut room);
    for (slot, place) in table.heads.iter_mut().enumerate() {
        *place = entry(t.head(slot));
    }
    // SAFETY: `init` has written every slot, which is all that the table holds.
    unsafe { room.assume_init() }
}

fn store_heads<const M: usize>(table: &ChainHeadsTable<M>, t: &mut Tables) {
    for (slot, entry) in table.heads.iter().enumerate() {
        t.set_head(slot, head(entry));
    }
}

/// Runs the act on both tables and stores both.
fn changing<const N: usize, const M: usize>(
    t: &mut Tables,
    act: impl FnOnce(&mut BlockTable<N>, &mut ChainHeadsTable<M>),
) {
    let mut blocks = load_blocks::<N>(t);
    let mut heads = load_heads::<M>(t);
    act(&mut blocks, &mut heads);
    store_blocks(&blocks, t);
    store_heads(&heads, t);
}

/// `on_both!(t, |b, h| act)` runs the act on the block table b and the head table h.
macro_rules! on_both {
    ($t:expr, |$b:ident, $h:ident| $act:expr) => {
        by_n!($t.n(), N => by_m!($t.m(), M => changing::<N, M>($t, |$b, $h| $act)))
    };
}

pub fn count(t: &Tables) -> usize {
    by_m!(t.m(), M => load_heads::<M>(t).count())
}

pub fn has_stored_head(t: &Tables) -> bool {
    by_m!(t.m(), M => load_heads::<M>(t).has_stored_head())
}

pub fn slot_of_head(t: &Tables, slot: u32) -> Option<u32> {
    by_m!(t.m(), M => load_heads::<M>(t).slot_of_head(slot)).map(number)
}

pub fn first_empty(t: &Tables) -> Option<u32> {
    by_m!(t.m(), M => load_heads::<M>(t).first_empty()).map(number)
}

/// What the original's iterator gives after the heads in use below a head slot.
pub fn occupied_heads(t: &Tables, head: u32) -> Vec<(u32, u32)> {
    by_m!(t.m(), M => {
        let table = load_heads::<M>(t);
        let below = table.heads.iter().take(head as usize).filter(|head| !head.is_empty()).count();
        table.occupied_heads().skip(below).collect()
    })
}

pub fn connected_head_at(t: &Tables, head: u32) -> Option<u32> {
    by_m!(t.m(), M => load_heads::<M>(t).connected_head_at(head as usize))
}

pub fn stored_head_tail(t: &Tables, head: u32) -> Option<u32> {
    by_m!(t.m(), M => load_heads::<M>(t).stored_head_tail(head as usize))
}

pub fn set_missing_parent_hash(t: &mut Tables, head: u32, hash: Hash) {
    by_m!(t.m(), M => {
        let mut heads = load_heads::<M>(t);
        heads.set_missing_parent_hash(head as usize, &hash);
        store_heads(&heads, t);
    })
}

pub fn locate_anchor(t: &Tables, slot: u32) -> Located {
    let anchor =
        by_n!(t.n(), N => ChainHeadsTable::<2>::locate_anchor(&*load_blocks::<N>(t), slot));
    match anchor {
        Anchor::Connection(at) => Located::Connection(at),
        Anchor::Tail(at) => Located::Tail(at),
    }
}

/// Panics on a head slot of m or more.
pub fn recompute_caches(t: &mut Tables, head: u32, slot: u32, previous: Hash) {
    on_both!(t, |b, h| h.recompute_caches(head as usize, b, slot, &previous))
}

pub fn refresh_head(t: &mut Tables, slot: u32) {
    on_both!(t, |b, h| h.refresh_head(b, slot))
}

pub fn recompute_all_caches(t: &mut Tables) {
    on_both!(t, |b, h| h.recompute_all_caches(b))
}

pub fn select_eviction_victim(t: &Tables) -> Option<u32> {
    by_n!(t.n(), N => by_m!(t.m(), M => {
        load_heads::<M>(t).select_eviction_victim(&*load_blocks::<N>(t), t.active)
    }))
    .map(number)
}

pub fn evict_one(t: &mut Tables) {
    let active = t.active;
    on_both!(t, |b, h| h.evict_one(b, active))
}

pub fn insert_head(t: &mut Tables, slot: u32, now: u64, previous: Hash) {
    let active = t.active;
    on_both!(t, |b, h| h.insert_head(b, slot, now, &previous, active))
}

pub fn resolve_pending_tails(t: &mut Tables, slot: u32, previous: Hash) {
    on_both!(t, |b, h| h.resolve_pending_tails(b, slot, &previous))
}

pub fn on_block_admitted(
    t: &mut Tables,
    slot: u32,
    parent: Option<u32>,
    previous: Hash,
    now: u64,
) {
    let active = t.active;
    on_both!(t, |b, h| h.on_block_admitted(b, slot, parent, previous, now, active))
}

/// Not a function of the original's, but the step that the scope document adds to admit: the
/// original's `refresh_head`, in slot order, for each stored head whose cached tail is occupied and
/// has a parent.
pub fn refresh_tails(t: &mut Tables) {
    on_both!(t, |b, h| for slot in 0..h.heads.len() {
        let tail = h.stored_head_tail(slot).and_then(|tail| b.get(tail));
        if tail.is_some_and(|tail| tail.parent_ref() != NONE_REF) {
            h.refresh_head(b, h.heads[slot].head_idx);
        }
    })
}

pub fn on_blocks_deleted(t: &mut Tables, deleted: &[u32], parent: u32) {
    on_both!(t, |b, h| h.on_blocks_deleted(b, deleted, parent))
}

pub fn recompute_head_ref_counts(t: &mut Tables) {
    by_n!(t.n(), N => {
        let mut blocks = load_blocks::<N>(t);
        ChainHeadsTable::<2>::recompute_head_ref_counts(&mut *blocks);
        store_blocks(&blocks, t);
    })
}

pub fn rebuild_from_blocks(t: &mut Tables, now: u64) {
    let active = t.active;
    on_both!(t, |b, h| h.rebuild_from_blocks(b, now, active))
}

pub fn select_parent_recovery(t: &Tables, now: u64, retry: u64) -> Option<Recovery> {
    by_n!(t.n(), N => by_m!(t.m(), M => {
        load_heads::<M>(t).select_parent_recovery(&*load_blocks::<N>(t), now, retry)
    }))
    .map(|(head, asked)| Recovery {
        head: number(head),
        missing: asked.missing,
        claimed: asked.claimed,
    })
}

pub fn mark_requested(t: &mut Tables, head: u32, now: u64) {
    by_m!(t.m(), M => {
        let mut heads = load_heads::<M>(t);
        heads.mark_requested(head as usize, now);
        store_heads(&heads, t);
    })
}

pub fn head_eligible_at(_: &Tables, requested: u64, retry: u64) -> u64 {
    ChainHeadsTable::<2>::head_eligible_at(requested, retry)
}

pub fn earliest_recovery_deadline(t: &Tables, retry: u64) -> Option<u64> {
    by_m!(t.m(), M => load_heads::<M>(t).earliest_recovery_deadline(retry))
}

fn number(slot: usize) -> u32 {
    slot as u32
}
