//! What hangs under a block: a model, written from the change request's sentences alone (S-1), since
//! the original has no such function. It goes level by level and keeps nothing but how often each
//! slot is met at the level.

use crate::tables::{NONE_REF, Tables};

/// How many blocks hang under a slot, its own among them and each counted at every level at which it
/// is met, and the highest sequence among them.
#[derive(Debug, Clone, Copy, PartialEq, Eq)]
pub struct Under {
    pub blocks: u32,
    pub highest: u32,
}

/// Level 0 is the block in this slot and level k + 1 the children of those of level k, n levels in
/// all. Nothing for a slot that is empty or out of range.
pub fn under(t: &Tables, slot: u32) -> Option<Under> {
    let own = *t.sequences.get(slot as usize)?;
    if own == NONE_REF {
        return None;
    }
    let mut level = vec![0; t.n()];
    level[slot as usize] = 1;
    let mut all = Under { blocks: 0, highest: own };
    for _ in 0..t.n() {
        for at in (0..t.n()).filter(|&at| level[at] > 0) {
            all.blocks += level[at];
            all.highest = all.highest.max(t.sequences[at]);
        }
        level = children(t, &level);
    }
    Some(all)
}

/// The next level: an occupied slot is met as often as its parent slot was, an empty one never.
fn children(t: &Tables, level: &[u32]) -> Vec<u32> {
    let met = |slot: u32| level.get(slot as usize).copied().unwrap_or(0);
    let slots = t.sequences.iter().zip(&t.parents);
    slots.map(|(sequence, parent)| if *sequence == NONE_REF { 0 } else { met(*parent) }).collect()
}
