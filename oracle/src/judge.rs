//! The original's side of the calls, put together from its functions as the scope document says.
//! The refusals are read off that document too, in its order. What hangs under a block and the head
//! screen are models', and the first is the original's too on tables that calls have reached.

use crate::buffers::BUFFERS;
use crate::calls::{Answer, Call, Refusal, Reply, room};
use crate::original::*;
use crate::screen::screen;
use crate::tables::{Block, BlockStatus, Hash, Head, NONE_REF, Tables};
use crate::under::{Under, under};

/// The retry span of a call that gives none.
const TICKS: u64 = 60;

/// Runs the call; where it is refused the tables stay.
pub fn run(call: &Call, t: &mut Tables) -> Reply {
    if !is_shaped(t) {
        return Err(1);
    }
    match *call {
        Call::Fresh => {
            fresh(t);
            Ok(Answer::Done)
        }
        Call::Admit { sequence, ref hash, ref previous, arrival } => {
            let slot = admit(t, sequence, hash, previous, arrival)?;
            refresh_tails(t);
            Ok(Answer::Slot(slot))
        }
        Call::Promote { slot } => promote(t, slot),
        Call::Remove { slot } => remove(t, slot),
        Call::Timer { now, span } => {
            let asked = select_parent_recovery(t, now, span.unwrap_or(TICKS));
            if let Some(asked) = asked {
                mark_requested(t, asked.head, now);
            }
            Ok(Answer::Asked(asked))
        }
        Call::Deadline { span } => {
            Ok(Answer::Due(earliest_recovery_deadline(t, span.unwrap_or(TICKS))))
        }
        Call::Restart { now } => {
            empty_heads(t);
            on_blocks_deleted(t, &[], NONE_REF);
            rebuild_from_blocks(t, now);
            Ok(Answer::Done)
        }
        Call::Under { slot } => under(t, slot).map(Answer::Under).ok_or(3),
        Call::Screen { more } if room(t, more) < t.m() => Err(10),
        Call::Screen { .. } => Ok(Answer::Screen(screen(t))),
    }
}

/// The reply to what is asked on tables that calls have reached.
pub fn asked(question: &Call, t: &mut Tables) -> Reply {
    match *question {
        Call::Under { slot } => listed(t, slot),
        _ => run(question, t),
    }
}

/// What hangs under a slot of tables that calls have reached, by the original's own list, which is
/// empty where no block is.
pub fn listed(t: &Tables, slot: u32) -> Reply {
    let (blocks, slots) = mark_subtree(t, slot);
    let sequences = slots[..blocks].iter().map(|&slot| t.sequences[slot as usize]);
    let highest = sequences.max().ok_or(3)?;
    Ok(Answer::Under(Under { blocks: blocks as u32, highest }))
}

/// Whether the slots are as many as they may be and every buffer fits them.
pub fn is_shaped(t: &Tables) -> bool {
    let (n, m) = (t.n(), t.m());
    (1..=1024).contains(&n)
        && (2..=64).contains(&m)
        && BUFFERS.iter().all(|buffer| (buffer.len)(t) == (buffer.fits)(n, m))
}

fn fresh(t: &mut Tables) {
    (0..t.n()).for_each(|slot| t.set_block(slot, Block::EMPTY));
    empty_heads(t);
    t.active = NONE_REF;
}

fn empty_heads(t: &mut Tables) {
    (0..t.m()).for_each(|slot| t.set_head(slot, Head::EMPTY));
}

/// Admit without its added step, as the original does it.
pub fn admit(
    t: &mut Tables,
    sequence: u32,
    hash: &[u8],
    previous: &[u8],
    arrival: u64,
) -> Result<u32, Refusal> {
    let hash: Hash = hash.try_into().map_err(|_| 2)?;
    let previous: Hash = previous.try_into().map_err(|_| 2)?;
    if sequence == NONE_REF {
        return Err(4);
    }
    if hash == [0; 32] {
        return Err(5);
    }
    if find(t, sequence, hash).is_some() {
        return Err(6);
    }
    let slot = next_free_index(t).ok_or(7)?;
    let parent = find_parent(t, previous, sequence);
    insert_at(t, slot, hash, parent.unwrap_or(NONE_REF), sequence, 0, 0);
    on_block_admitted(t, slot, parent, previous, arrival);
    Ok(slot)
}

fn promote(t: &mut Tables, slot: u32) -> Reply {
    let block = get(t, slot).ok_or(3)?;
    if t.active != NONE_REF && block.parent != t.active {
        return Err(8);
    }
    set_on_active_chain(t, slot, true);
    set_status(t, slot, BlockStatus::Active);
    t.active = slot;
    recompute_all_caches(t);
    Ok(Answer::Done)
}

fn remove(t: &mut Tables, slot: u32) -> Reply {
    let block = get(t, slot).ok_or(3)?;
    let (freed, mut slots) = mark_subtree(t, slot);
    slots.truncate(freed);
    if slots.iter().any(|&slot| t.flags[slot as usize] & 1 == 1) {
        return Err(9);
    }
    delete_all(t, &slots);
    on_blocks_deleted(t, &slots, block.parent);
    Ok(Answer::Freed(freed as u32))
}
