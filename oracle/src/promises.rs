//! Demand 3 on real tables, written from the scope document's "Lists of calls" alone. A ledger is
//! kept of what the calls of the list were and what they answered; everything else is worked out
//! afresh from the tables after each call.

use crate::calls::{Answer, Call, Reply};
use crate::tables::{Block, Hash, Head, NONE_REF, Tables};

/// What a block is called: its sequence and hash.
type Name = (u32, Hash);

/// What the accepted calls of a list have said of each slot.
#[derive(Debug, Clone)]
pub struct Ledger {
    /// The name in the last accepted admit that returned the slot.
    admitted: Vec<Option<Name>>,
    /// The block's name when an accepted promote named the slot.
    promoted: Vec<Option<Name>>,
    /// The slot of the last accepted promote.
    last: u32,
}

impl Ledger {
    /// The ledger of the empty list on n block slots.
    pub fn new(n: usize) -> Ledger {
        Ledger { admitted: vec![None; n], promoted: vec![None; n], last: NONE_REF }
    }

    /// Notes a call, and says what it broke. Tables that a refused call left as they were have been
    /// looked at before.
    pub fn check(
        &mut self,
        call: &Call,
        reply: &Reply,
        before: &Tables,
        after: &Tables,
    ) -> Result<(), String> {
        match reply {
            Ok(answer) => {
                self.note(call, answer)?;
                self.holds(after)
            }
            Err(_) if before == after => Ok(()),
            Err(number) => {
                Err(format!("the call is refused by {number} and has changed the tables"))
            }
        }
    }

    fn note(&mut self, call: &Call, answer: &Answer) -> Result<(), String> {
        match (call, answer) {
            (Call::Admit { sequence, hash, .. }, &Answer::Slot(slot)) => {
                let hash = hash.as_slice().try_into().map_err(|_| "a hash of another length")?;
                if self.is_active(slot) {
                    return Err(format!("slot {slot} of an active block is given to another"));
                }
                let place = self.admitted.get_mut(slot as usize);
                *place.ok_or(format!("no slot {slot}"))? = Some((*sequence, hash));
            }
            (Call::Promote { slot }, Answer::Done) => {
                let name = self.admitted.get(*slot as usize).copied().flatten();
                name.ok_or(format!("slot {slot} is promoted and was never admitted"))?;
                self.promoted[*slot as usize] = name;
                self.last = *slot;
            }
            (Call::Remove { .. }, Answer::Freed(_))
            | (Call::Timer { .. }, Answer::Asked(_))
            | (Call::Deadline { .. }, Answer::Due(_))
            | (Call::Restart { .. }, Answer::Done)
            | (Call::Under { .. }, Answer::Under(_))
            | (Call::Screen { .. }, Answer::Screen(_)) => {}
            _ => return Err("the answer is not one of the call's".to_string()),
        }
        Ok(())
    }

    fn is_active(&self, slot: u32) -> bool {
        self.promoted.get(slot as usize).is_some_and(Option::is_some)
    }

    /// The first sentence that the tables break.
    pub fn holds(&self, t: &Tables) -> Result<(), String> {
        self.active_blocks(t)?;
        self.active_line(t)?;
        self.names(t)?;
        let children = children(t);
        let heads = tips(t, &children)?;
        self.counts_and_heads(t, &children, &heads)?;
        self.anchors(t)
    }

    /// The promoted slots keep their blocks, and bit 0 is set exactly on them.
    fn active_blocks(&self, t: &Tables) -> Result<(), String> {
        for slot in 0..t.n() {
            let block = t.block(slot);
            let promoted = self.promoted[slot];
            if promoted.is_some_and(|name| name != (block.sequence, block.hash)) {
                return Err(format!("active block {slot} has not kept its sequence and hash"));
            }
            if (block.flags & 1 == 1) != promoted.is_some() {
                return Err(format!("bit 0 of slot {slot} does not say whether it was promoted"));
            }
        }
        Ok(())
    }

    /// The active blocks are one line of parents from the record down.
    fn active_line(&self, t: &Tables) -> Result<(), String> {
        if t.active != self.last {
            return Err("the record does not hold the last promoted slot".to_string());
        }
        let active = self.promoted.iter().flatten().count();
        let mut at = t.active;
        let mut met = 0;
        while self.is_active(at) && met <= active {
            met += 1;
            at = t.parents[at as usize];
        }
        if met == active { Ok(()) } else { Err("the active blocks are not one line".to_string()) }
    }

    /// An empty slot is the fixed record, an occupied one has the name that it was admitted with,
    /// and no two have the same.
    fn names(&self, t: &Tables) -> Result<(), String> {
        let mut names = Vec::with_capacity(t.n());
        for slot in 0..t.n() {
            let block = t.block(slot);
            if block.sequence != NONE_REF {
                if self.admitted[slot] != Some((block.sequence, block.hash)) {
                    return Err(format!("block {slot} is not the one last admitted there"));
                }
                names.push((block.sequence, block.hash));
            } else if block != Block::EMPTY {
                return Err(format!("empty slot {slot} is not the empty record"));
            }
        }
        names.sort_unstable();
        match names.windows(2).find(|pair| pair[0] == pair[1]) {
            Some(pair) => Err(format!("two blocks of sequence {} have one hash", pair[0].0)),
            None => Ok(()),
        }
    }

    /// Each occupied block off the active chain counts max(1, its children) and is a head exactly
    /// when it has none.
    fn counts_and_heads(
        &self,
        t: &Tables,
        children: &[usize],
        heads: &[bool],
    ) -> Result<(), String> {
        for slot in (0..t.n()).filter(|&slot| is_occupied(t, slot as u32)) {
            if self.is_active(slot as u32) {
                continue;
            }
            let (count, children) = (t.counts[slot], children[slot]);
            if usize::from(count) != children.max(1) {
                return Err(format!("block {slot} counts {count} and has {children} children"));
            }
            if heads[slot] != (children == 0) {
                let has = if heads[slot] { "a" } else { "no" };
                return Err(format!("block {slot} has {children} children and {has} head"));
            }
        }
        Ok(())
    }

    /// A head is connected exactly when its parent walk meets an active block; its anchor is the
    /// first such block, or else the last block of the walk.
    fn anchors(&self, t: &Tables) -> Result<(), String> {
        for slot in (0..t.m()).filter(|&slot| t.tips[slot] != NONE_REF) {
            let head = t.head(slot);
            let (last, meets) = self.walk(t, head.tip);
            if (head.connected & 1 == 1) != meets {
                return Err(format!("head {slot} is wrong about whether it is connected"));
            }
            if head.tail != last {
                return Err(format!("head {slot} has anchor {}, its walk gives {last}", head.tail));
            }
        }
        Ok(())
    }

    /// The last block of the parent walk, and whether it is active. The walk makes at most n visits
    /// and ends at an active block, or where the next slot is empty or none.
    fn walk(&self, t: &Tables, tip: u32) -> (u32, bool) {
        let (mut last, mut next) = (tip, tip);
        for _ in 0..t.n() {
            if !is_occupied(t, next) {
                break;
            }
            last = next;
            if self.is_active(last) {
                return (last, true);
            }
            next = t.parents[last as usize];
        }
        (last, false)
    }
}

fn is_occupied(t: &Tables, slot: u32) -> bool {
    t.sequences.get(slot as usize).is_some_and(|&sequence| sequence != NONE_REF)
}

/// For each slot, the number of occupied blocks whose parent slot it is.
fn children(t: &Tables) -> Vec<usize> {
    let mut children = vec![0; t.n()];
    for slot in (0..t.n()).filter(|&slot| is_occupied(t, slot as u32)) {
        if let Some(count) = children.get_mut(t.parents[slot] as usize) {
            *count += 1;
        }
    }
    children
}

/// Which slots are tips. All tips in use are occupied, childless and different, and an empty head is
/// the fixed record.
fn tips(t: &Tables, children: &[usize]) -> Result<Vec<bool>, String> {
    let mut heads = vec![false; t.n()];
    for slot in 0..t.m() {
        let head = t.head(slot);
        let tip = head.tip as usize;
        if head.tip == NONE_REF {
            if head != Head::EMPTY {
                return Err(format!("empty head {slot} is not the empty record"));
            }
        } else if !is_occupied(t, head.tip) {
            return Err(format!("the tip {tip} of head {slot} is not occupied"));
        } else if children[tip] > 0 {
            return Err(format!("the tip {tip} of head {slot} has a child"));
        } else if heads[tip] {
            return Err(format!("two heads have the tip {tip}"));
        } else {
            heads[tip] = true;
        }
    }
    Ok(heads)
}
