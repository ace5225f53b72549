//! The map of occupied slots: a model, written from the change request's sentences alone (S-3), since the
//! original has no map. It goes bit by bit. Slot s is bit s mod 64 of word s div 64.

use crate::original;
use crate::tables::{Hash, NONE_REF, NotInserted, Tables};

const WORD: usize = 64;

/// How many words n slots have: the fewest.
pub fn words(n: usize) -> usize {
    n.div_ceil(WORD)
}

/// The true map: the bits of the occupied slots are set, and no others.
pub fn of(sequences: &[u32]) -> Vec<u64> {
    let mut map = vec![0; words(sequences.len())];
    let occupied = (0..sequences.len()).filter(|&slot| sequences[slot] != NONE_REF);
    occupied.for_each(|slot| put(&mut map, slot, true));
    map
}

pub fn is_true(t: &Tables) -> bool {
    t.map == of(&t.sequences)
}

/// All bits of the map, in their order, those past the last slot too.
pub fn bits(map: &[u64]) -> impl Iterator<Item = bool> {
    map.iter().flat_map(|word| (0..WORD).map(move |bit| word >> bit & 1 == 1))
}

/// The lowest free slot goes by the map: its first free bit. None if there is no such bit, or the slot
/// turns out occupied or n or more.
pub fn next_free_index(t: &Tables) -> Option<u32> {
    let slot = first_free(&t.map)?;
    let is_empty = t.sequences.get(slot) == Some(&NONE_REF);
    is_empty.then_some(slot as u32)
}

pub fn first_free(map: &[u64]) -> Option<usize> {
    bits(map).position(|bit| !bit)
}

/// The occupied total goes by the map: its ones.
pub fn total(map: &[u64]) -> u32 {
    bits(map).filter(|bit| *bit).count() as u32
}

/// What is left of the map: inserting a block sets its slot's bit, and freeing a slot clears it.
pub fn left(before: &Tables, inserted: Option<u32>, after: &Tables) -> Vec<u64> {
    let mut map = before.map.clone();
    let inserted = inserted.map(|slot| slot as usize);
    if let Some(slot) = inserted {
        put(&mut map, slot, true);
    }
    let is_empty = |t: &Tables, slot: usize| t.sequences[slot] == NONE_REF;
    for slot in 0..before.n() {
        let was_there = inserted == Some(slot) || !is_empty(before, slot);
        if was_there && is_empty(after, slot) {
            put(&mut map, slot, false);
        }
    }
    map
}

pub fn put(map: &mut [u64], slot: usize, on: bool) {
    let (word, bit) = (&mut map[slot / WORD], 1 << (slot % WORD));
    *word = if on { *word | bit } else { *word & !bit };
}

/// The original's insertion, into the slot that the map gives.
pub fn insert(
    t: &mut Tables,
    hash: Hash,
    parent: u32,
    sequence: u32,
    count: u8,
    flags: u8,
) -> Result<u32, NotInserted> {
    if sequence == NONE_REF {
        return Err(NotInserted::ReservedSequence);
    }
    let slot = next_free_index(t).ok_or(NotInserted::Full)?;
    let before = t.clone();
    original::insert_at(t, slot, hash, parent, sequence, count, flags);
    t.map = left(&before, Some(slot), t);
    Ok(slot)
}

pub fn delete(t: &mut Tables, slot: u32) -> bool {
    let before = t.clone();
    let freed = original::delete(t, slot);
    t.map = left(&before, None, t);
    freed
}
