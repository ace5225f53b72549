//! The port's functions on the lent buffers, by the C entry points of its static libraries. NONE_REF
//! stands for none, 1 and 0 for yes and no.

use crate::args::Rank;
use crate::entries::{call, entries};
use crate::tables::{
    Block, BlockStatus, Hash, Located, NONE_REF, NotInserted, Recovery, SPARE, Tables,
};

entries! {
    probe_hash_less([u8], [u8]) -> u32;
    station_find([u8], [u32], u32, [u8]) -> u32;
    station_next_free_index([u32]) -> u32;
    station_find_parent([u8], [u32], u32, [u8]) -> u32;
    station_get([u8], [u32], [u32], [u8], [u8], u32, [mut u8], [mut u32]) -> u32;
    station_head_ref_count([u32], [u8], u32) -> u32;
    station_status([u32], [u8], u32) -> u32;
    station_mark_subtree([u32], [u32], u32, [mut u32]) -> u32;
    station_walks_to_active_chain([u32], [u32], [u8], u32) -> u32;
    probe_adjust_head_ref_count([u32], [mut u8], u32, i8) -> u32;
    probe_set_head_ref_count([u32], [mut u8], u32, u8) -> u32;
    probe_set_on_active_chain([u32], [mut u8], u32, u32) -> u32;
    probe_set_status([u32], [mut u8], u32, u32) -> u32;
    probe_insert_at([blocks], u32, [u8], u32, u32, u8, u8);
    probe_insert([blocks], [u8], u32, u32, u8, u8) -> u64;
    probe_delete([blocks], u32) -> u32;
    probe_resolve_parent_ref([mut u32], u32, u32);
    probe_set_parent_ref([mut u32], [u32], u32, u32) -> u32;
    station_count([u32]) -> u32;
    station_has_stored_head([u32], [u8]) -> u32;
    station_slot_of_head([u32], u32) -> u32;
    probe_first_empty([u32]) -> u32;
    probe_next_occupied_head([u32], [u32], u32, [mut u32]) -> u32;
    probe_connected_head_at([u32], [u8], u32) -> u64;
    probe_stored_head_tail([u32], [u32], [u8], u32) -> u64;
    probe_set_missing_parent_hash([u32], [mut u8], u32, [u8]);
    station_locate_anchor([u32], [u32], [u8], u32) -> u64;
    probe_recompute_caches(
        [u32], [u32], [u8], [u32], [mut u32], [mut u8], [mut u64], [mut u8], u32, u32, [u8]
    );
    probe_refresh_head([u32], [u32], [u8], [u32], [mut u32], [mut u8], [mut u64], [mut u8], u32);
    probe_recompute_all_caches(
        [u32], [u32], [u8], [u32], [mut u32], [mut u8], [mut u64], [mut u8]
    );
    probe_select_eviction_victim([u8], [u32], [u32], u32) -> u32;
    probe_evict_one([all], u32);
    probe_rebuild_from_blocks([all], u64, u32);
    probe_insert_head([all], u32, u32, [u8], u64, u32);
    probe_resolve_pending_tails([all], u32, [u8]);
    probe_on_block_admitted([all], u32, u32, [u8], u64, u32);
    probe_refresh_tails([all]);
    probe_recompute_head_ref_counts([u32], [u32], [mut u8]);
    probe_on_blocks_deleted([all], [u32], u32);
    probe_head_eligible_at(u64, u64) -> u64;
    probe_select_parent_recovery([u8], [u32], [u32], [u32], [u64], [u8], u64, u64) -> u64;
    probe_mark_requested([mut u64], u32, u64);
    probe_earliest_recovery_deadline([u32], [u64], [u8], u64, [mut u64]) -> u32;
    station_outranks(u64, u16, [u8], u64, u16, [u8]) -> u32;
}

fn found(answer: u32) -> Option<u32> {
    (answer != NONE_REF).then_some(answer)
}

/// Of an answer that may be NONE_REF: 2^32 is none.
fn found_any(answer: u64) -> Option<u32> {
    u32::try_from(answer).ok()
}

fn counted(answer: u32) -> Option<u8> {
    found(answer).map(|count| u8::try_from(count).expect("a count is a byte"))
}

fn said(answer: u32) -> bool {
    match answer {
        0 => false,
        1 => true,
        other => panic!("neither yes nor no: {other}"),
    }
}

pub fn hash_less(_: &Tables, hash: Hash, other: Hash) -> bool {
    said(call!(probe_hash_less([hash], [other])))
}

pub fn find(t: &Tables, sequence: u32, hash: Hash) -> Option<u32> {
    found(call!(station_find([t.hashes], [t.sequences], sequence, [hash])))
}

pub fn next_free_index(t: &Tables) -> Option<u32> {
    found(call!(station_next_free_index([t.sequences])))
}

pub fn find_parent(t: &Tables, previous: Hash, sequence: u32) -> Option<u32> {
    found(call!(station_find_parent([t.hashes], [t.sequences], sequence, [previous])))
}

pub fn get(t: &Tables, slot: u32) -> Option<Block> {
    let mut hash = [0; 32];
    let mut words = [0; 4];
    let there = call!(station_get(
        [t.hashes], [t.parents], [t.sequences], [t.counts], [t.flags], slot, [mut hash], [mut words]
    ));
    let [parent, sequence, count, flags] = words;
    said(there).then(|| Block {
        hash,
        parent,
        sequence,
        count: u8::try_from(count).expect("a count is a byte"),
        flags: u8::try_from(flags).expect("the flags are a byte"),
    })
}

pub fn head_ref_count(t: &Tables, slot: u32) -> Option<u8> {
    counted(call!(station_head_ref_count([t.sequences], [t.counts], slot)))
}

pub fn status(t: &Tables, slot: u32) -> Option<BlockStatus> {
    found(call!(station_status([t.sequences], [t.flags], slot))).map(|status| match status {
        0 => BlockStatus::Stored,
        1 => BlockStatus::Connected,
        2 => BlockStatus::Active,
        other => panic!("not a status: {other}"),
    })
}

/// The number of slots listed, and the caller's list of n as it then stands.
pub fn mark_subtree(t: &Tables, slot: u32) -> (usize, Vec<u32>) {
    let mut list = vec![SPARE; t.n()];
    let listed = call!(station_mark_subtree([t.parents], [t.sequences], slot, [mut list]));
    (listed as usize, list)
}

pub fn walks_to_active_chain(t: &Tables, slot: u32) -> bool {
    said(call!(station_walks_to_active_chain([t.parents], [t.sequences], [t.flags], slot)))
}

pub fn adjust_head_ref_count(t: &mut Tables, slot: u32, change: i8) -> Option<u8> {
    counted(call!(probe_adjust_head_ref_count([t.sequences], [mut t.counts], slot, change)))
}

pub fn set_head_ref_count(t: &mut Tables, slot: u32, count: u8) -> bool {
    said(call!(probe_set_head_ref_count([t.sequences], [mut t.counts], slot, count)))
}

pub fn set_on_active_chain(t: &mut Tables, slot: u32, value: bool) -> bool {
    let value = u32::from(value);
    said(call!(probe_set_on_active_chain([t.sequences], [mut t.flags], slot, value)))
}

pub fn set_status(t: &mut Tables, slot: u32, status: BlockStatus) -> bool {
    let status = match status {
        BlockStatus::Stored => 0,
        BlockStatus::Connected => 1,
        BlockStatus::Active => 2,
    };
    said(call!(probe_set_status([t.sequences], [mut t.flags], slot, status)))
}

pub fn insert_at(
    t: &mut Tables,
    slot: u32,
    hash: Hash,
    parent: u32,
    sequence: u32,
    count: u8,
    flags: u8,
) {
    call!(probe_insert_at([blocks t], slot, [hash], parent, sequence, count, flags))
}

/// 2^32 stands for the reserved sequence, and one more for a full table.
pub fn insert(
    t: &mut Tables,
    hash: Hash,
    parent: u32,
    sequence: u32,
    count: u8,
    flags: u8,
) -> Result<u32, NotInserted> {
    let answer = call!(probe_insert([blocks t], [hash], parent, sequence, count, flags));
    match halves(answer) {
        (0, slot) => Ok(slot),
        (1, 0) => Err(NotInserted::ReservedSequence),
        (1, 1) => Err(NotInserted::Full),
        other => panic!("not an answer of insert: {other:?}"),
    }
}

pub fn delete(t: &mut Tables, slot: u32) -> bool {
    said(call!(probe_delete([blocks t], slot)))
}

pub fn resolve_parent_ref(t: &mut Tables, slot: u32, parent: u32) {
    call!(probe_resolve_parent_ref([mut t.parents], slot, parent))
}

pub fn set_parent_ref(t: &mut Tables, slot: u32, parent: u32) -> bool {
    said(call!(probe_set_parent_ref([mut t.parents], [t.sequences], slot, parent)))
}

pub fn count(t: &Tables) -> usize {
    call!(station_count([t.tips])) as usize
}

pub fn has_stored_head(t: &Tables) -> bool {
    said(call!(station_has_stored_head([t.tips], [t.connected])))
}

pub fn slot_of_head(t: &Tables, slot: u32) -> Option<u32> {
    found(call!(station_slot_of_head([t.tips], slot)))
}

pub fn first_empty(t: &Tables) -> Option<u32> {
    found(call!(probe_first_empty([t.tips])))
}

/// Tip and anchor of each head in use from a head slot on, one after the other.
pub fn occupied_heads(t: &Tables, head: u32) -> Vec<(u32, u32)> {
    let mut heads = Vec::new();
    let mut from = head;
    let mut out = [SPARE; 3];
    while heads.len() <= t.m()
        && said(call!(probe_next_occupied_head([t.tips], [t.tails], from, [mut out])))
    {
        let [slot, tip, anchor] = out;
        heads.push((tip, anchor));
        from = slot.wrapping_add(1);
    }
    heads
}

pub fn connected_head_at(t: &Tables, head: u32) -> Option<u32> {
    found_any(call!(probe_connected_head_at([t.tips], [t.connected], head)))
}

pub fn stored_head_tail(t: &Tables, head: u32) -> Option<u32> {
    found_any(call!(probe_stored_head_tail([t.tips], [t.tails], [t.connected], head)))
}

pub fn set_missing_parent_hash(t: &mut Tables, head: u32, hash: Hash) {
    call!(probe_set_missing_parent_hash([t.tips], [mut t.missing], head, [hash]))
}

/// 2^32 is added to a connection.
pub fn locate_anchor(t: &Tables, slot: u32) -> Located {
    let (kind, at) =
        halves(call!(station_locate_anchor([t.parents], [t.sequences], [t.flags], slot)));
    match kind {
        0 => Located::Tail(at),
        1 => Located::Connection(at),
        other => panic!("neither tail nor connection: {other}"),
    }
}

fn halves(answer: u64) -> (u32, u32) {
    ((answer >> 32) as u32, answer as u32)
}

pub fn recompute_caches(t: &mut Tables, head: u32, slot: u32, previous: Hash) {
    call!(probe_recompute_caches(
        [t.parents], [t.sequences], [t.flags], [t.tips],
        [mut t.tails], [mut t.missing], [mut t.requested], [mut t.connected],
        head, slot, [previous]
    ))
}

pub fn refresh_head(t: &mut Tables, slot: u32) {
    call!(probe_refresh_head(
        [t.parents], [t.sequences], [t.flags], [t.tips],
        [mut t.tails], [mut t.missing], [mut t.requested], [mut t.connected],
        slot
    ))
}

pub fn recompute_all_caches(t: &mut Tables) {
    call!(probe_recompute_all_caches(
        [t.parents], [t.sequences], [t.flags], [t.tips],
        [mut t.tails], [mut t.missing], [mut t.requested], [mut t.connected]
    ))
}

pub fn select_eviction_victim(t: &Tables) -> Option<u32> {
    let active = t.active;
    found(call!(probe_select_eviction_victim([t.hashes], [t.sequences], [t.tips], active)))
}

pub fn evict_one(t: &mut Tables) {
    let active = t.active;
    call!(probe_evict_one([all t], active))
}

/// The tip is the arriving block, as in the original.
pub fn insert_head(t: &mut Tables, slot: u32, now: u64, previous: Hash) {
    let active = t.active;
    call!(probe_insert_head([all t], slot, slot, [previous], now, active))
}

pub fn resolve_pending_tails(t: &mut Tables, slot: u32, previous: Hash) {
    call!(probe_resolve_pending_tails([all t], slot, [previous]))
}

pub fn on_block_admitted(t: &mut Tables, slot: u32, parent: Option<u32>, previous: Hash, now: u64) {
    let active = t.active;
    let parent = parent.unwrap_or(NONE_REF);
    call!(probe_on_block_admitted([all t], slot, parent, [previous], now, active))
}

pub fn refresh_tails(t: &mut Tables) {
    call!(probe_refresh_tails([all t]))
}

pub fn recompute_head_ref_counts(t: &mut Tables) {
    call!(probe_recompute_head_ref_counts([t.parents], [t.sequences], [mut t.counts]))
}

pub fn on_blocks_deleted(t: &mut Tables, deleted: &[u32], parent: u32) {
    call!(probe_on_blocks_deleted([all t], [deleted], parent))
}

pub fn rebuild_from_blocks(t: &mut Tables, now: u64) {
    let active = t.active;
    call!(probe_rebuild_from_blocks([all t], now, active))
}

pub fn head_eligible_at(_: &Tables, requested: u64, retry: u64) -> u64 {
    call!(probe_head_eligible_at(requested, retry))
}

/// The head slot is the upper half of the answer and the claimed sequence the lower; the missing
/// hash is the head's.
pub fn select_parent_recovery(t: &Tables, now: u64, retry: u64) -> Option<Recovery> {
    let answer = call!(probe_select_parent_recovery(
        [t.hashes],
        [t.sequences],
        [t.tips],
        [t.tails],
        [t.requested],
        [t.connected],
        now,
        retry
    ));
    (answer != u64::MAX).then(|| {
        let (head, claimed) = halves(answer);
        Recovery { head, missing: t.head(head as usize).missing, claimed }
    })
}

pub fn mark_requested(t: &mut Tables, head: u32, now: u64) {
    call!(probe_mark_requested([mut t.requested], head, now))
}

pub fn earliest_recovery_deadline(t: &Tables, retry: u64) -> Option<u64> {
    let mut time = [0];
    let given = call!(probe_earliest_recovery_deadline(
        [t.tips], [t.requested], [t.connected], retry, [mut time]
    ));
    said(given).then_some(time[0])
}

pub fn outranks(_: &Tables, first: Rank, second: Rank) -> bool {
    let (value, len, hash) = first;
    let (value2, len2, hash2) = second;
    said(call!(station_outranks(value, len, [hash], value2, len2, [hash2])))
}
