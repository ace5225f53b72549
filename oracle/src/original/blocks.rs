//! A child module of the original's blocks.rs: its functions on the lent buffers. The original is
//! called as it stands; here its private fields are read and written.

use super::{AVAILABLE_UTXO_BYTES, BlockEntry, BlockTable, BlockTableError};
use crate::sizes::by_n;
use crate::tables::{Block, BlockStatus, Hash, NotInserted, SPARE, Tables};

fn entry(block: Block) -> BlockEntry {
    BlockEntry {
        hash: block.hash,
        parent_ref: block.parent,
        sequence: block.sequence,
        available_utxo: [0; AVAILABLE_UTXO_BYTES],
        head_ref_count: block.count,
        flags: block.flags,
        len: 0,
    }
}

fn block(entry: &BlockEntry) -> Block {
    Block {
        hash: entry.hash,
        parent: entry.parent_ref,
        sequence: entry.sequence,
        count: entry.head_ref_count,
        flags: entry.flags,
    }
}

pub(crate) fn load_blocks<const N: usize>(t: &Tables) -> Box<BlockTable<N>> {
    let mut room = Box::<BlockTable<N>>::new_uninit();
    let table = BlockTable::init(&mut room);
    for (slot, place) in table.blocks.iter_mut().enumerate() {
        *place = entry(t.block(slot));
    }
    // SAFETY: `init` has written every slot, which is all that the table holds.
    unsafe { room.assume_init() }
}

pub(crate) fn store_blocks<const N: usize>(table: &BlockTable<N>, t: &mut Tables) {
    for (slot, entry) in table.blocks.iter().enumerate() {
        t.set_block(slot, block(entry));
    }
}

fn changing<const N: usize, R>(t: &mut Tables, act: impl FnOnce(&mut BlockTable<N>) -> R) -> R {
    let mut table = load_blocks::<N>(t);
    let answer = act(&mut table);
    store_blocks(&table, t);
    answer
}

/// Not a function of the original's, but its order of hashes.
pub fn hash_less(_: &Tables, hash: Hash, other: Hash) -> bool {
    hash < other
}

pub fn find(t: &Tables, sequence: u32, hash: Hash) -> Option<u32> {
    by_n!(t.n(), N => load_blocks::<N>(t).find(sequence, &hash))
}

pub fn next_free_index(t: &Tables) -> Option<u32> {
    by_n!(t.n(), N => load_blocks::<N>(t).next_free_index())
}

pub fn find_parent(t: &Tables, previous: Hash, sequence: u32) -> Option<u32> {
    by_n!(t.n(), N => load_blocks::<N>(t).find_parent(&previous, sequence))
}

pub fn get(t: &Tables, slot: u32) -> Option<Block> {
    by_n!(t.n(), N => load_blocks::<N>(t).get(slot).map(block))
}

pub fn head_ref_count(t: &Tables, slot: u32) -> Option<u8> {
    by_n!(t.n(), N => load_blocks::<N>(t).head_ref_count(slot))
}

pub fn status(t: &Tables, slot: u32) -> Option<BlockStatus> {
    by_n!(t.n(), N => load_blocks::<N>(t).get(slot).map(BlockEntry::status))
}

/// The number of slots listed, and the caller's list of n as it then stands.
pub fn mark_subtree(t: &Tables, slot: u32) -> (usize, Vec<u32>) {
    by_n!(t.n(), N => {
        let mut list = [SPARE; N];
        let listed = load_blocks::<N>(t).mark_subtree(slot, &mut list);
        (listed, list.to_vec())
    })
}

pub fn walks_to_active_chain(t: &Tables, slot: u32) -> bool {
    by_n!(t.n(), N => load_blocks::<N>(t).walks_to_active_chain(slot))
}

pub fn adjust_head_ref_count(t: &mut Tables, slot: u32, change: i8) -> Option<u8> {
    by_n!(t.n(), N => changing::<N, _>(t, |b| b.adjust_head_ref_count(slot, change)))
}

pub fn set_head_ref_count(t: &mut Tables, slot: u32, count: u8) -> bool {
    by_n!(t.n(), N => changing::<N, _>(t, |b| b.set_head_ref_count(slot, count)))
}

pub fn set_on_active_chain(t: &mut Tables, slot: u32, value: bool) -> bool {
    by_n!(t.n(), N => changing::<N, _>(t, |b| b.set_on_active_chain(slot, value)))
}

pub fn set_status(t: &mut Tables, slot: u32, status: BlockStatus) -> bool {
    by_n!(t.n(), N => changing::<N, _>(t, |b| b.set_status(slot, status)))
}

/// Panics on a slot of n or more.
pub fn insert_at(
    t: &mut Tables,
    slot: u32,
    hash: Hash,
    parent: u32,
    sequence: u32,
    count: u8,
    flags: u8,
) {
    let new = entry(Block {
        hash,
        parent,
        sequence,
        count,
        flags,
    });
    by_n!(t.n(), N => changing::<N, _>(t, |b| b.insert_at(slot, new)))
}

pub fn insert(
    t: &mut Tables,
    hash: Hash,
    parent: u32,
    sequence: u32,
    count: u8,
    flags: u8,
) -> Result<u32, NotInserted> {
    let new = entry(Block { hash, parent, sequence, count, flags });
    by_n!(t.n(), N => changing::<N, _>(t, |b| b.insert(new))).map_err(|why| match why {
        BlockTableError::ReservedSequence => NotInserted::ReservedSequence,
        BlockTableError::Full => NotInserted::Full,
    })
}

pub fn delete(t: &mut Tables, slot: u32) -> bool {
    by_n!(t.n(), N => changing::<N, _>(t, |b| b.delete(slot)))
}

/// Not a function of the original's, but its `delete` for each of the slots.
pub fn delete_all(t: &mut Tables, slots: &[u32]) {
    by_n!(t.n(), N => changing::<N, _>(t, |b| for &slot in slots {
        b.delete(slot);
    }))
}

pub fn resolve_parent_ref(t: &mut Tables, slot: u32, parent: u32) {
    by_n!(t.n(), N => changing::<N, _>(t, |b| b.resolve_parent_ref(slot, parent)))
}

pub fn set_parent_ref(t: &mut Tables, slot: u32, parent: u32) -> bool {
    by_n!(t.n(), N => changing::<N, _>(t, |b| b.set_parent_ref(slot, parent)))
}
