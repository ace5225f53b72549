//! What the blocks that were asked for have beneath them on damaged tables: a reader sees that each
//! damage which changes the answer was met.

use crate::tables::{NONE_REF, Tables};
use std::fmt;

#[derive(Default, PartialEq)]
pub struct Beneath {
    met: [u64; DAMAGES.len()],
}

/// What is said of a block with a damage, and whether it has it.
type Damage = (&'static str, fn(&Asked) -> bool);

const DAMAGES: [Damage; 9] = [
    ("their own parents", |a| a.ring == [a.slot]),
    ("on a ring of fewer than all", |a| (2..a.t.n()).contains(&a.ring.len())),
    ("on a ring of all", |a| a.ring.len() > 1 && a.ring.len() == a.t.n()),
    ("on a ring with a tree upon it", |a| a.ring.len() > 1 && a.has_tree_on_ring()),
    ("named by an empty slot", |a| a.empty_children().next().is_some()),
    ("with blocks beyond such a slot", |a| a.has_blocks_beyond_empty()),
    ("in a table of one slot", |a| a.t.n() == 1),
    ("with as many as can be", |a| a.t.n() > 1 && a.has_most()),
    ("with 1,047,553", |a| a.t.n() == 1024 && a.has_most()),
];

impl Beneath {
    /// Notes a block, and the number that hangs under it.
    pub fn note(&mut self, t: &Tables, slot: u32, blocks: u32) {
        let slot = slot as usize;
        let asked = Asked { t, slot, blocks: blocks as usize, ring: ring(t, slot) };
        for ((_, has), times) in DAMAGES.iter().zip(&mut self.met) {
            *times += u64::from(has(&asked));
        }
    }

    /// How often each damage was met.
    pub fn counts(&self) -> impl Iterator<Item = (&'static str, u64)> {
        DAMAGES.iter().zip(self.met).map(|((name, _), times)| (*name, times))
    }
}

/// A block that was asked for.
struct Asked<'a> {
    t: &'a Tables,
    slot: usize,
    blocks: usize,
    /// The slots on its way up, where that comes back to it.
    ring: Vec<usize>,
}

impl Asked<'_> {
    fn has_tree_on_ring(&self) -> bool {
        let is_on_ring = |slot: usize| self.ring.contains(&slot);
        let mut others =
            (0..self.t.n()).filter(|&slot| is_occupied(self.t, slot) && !is_on_ring(slot));
        others.any(|slot| is_on_ring(self.t.parents[slot] as usize))
    }

    fn has_blocks_beyond_empty(&self) -> bool {
        let is_other = |slot: usize| slot != self.slot && is_occupied(self.t, slot);
        self.empty_children().any(|empty| self.naming(empty).any(is_other))
    }

    /// As many as where the block is its own parent and all others are its children.
    fn has_most(&self) -> bool {
        let n = self.t.n();
        self.blocks == n * n - n + 1
    }

    fn empty_children(&self) -> impl Iterator<Item = usize> {
        self.naming(self.slot).filter(|&slot| !is_occupied(self.t, slot))
    }

    /// The slots whose parent cell names this one.
    fn naming(&self, named: usize) -> impl Iterator<Item = usize> {
        (0..self.t.n()).filter(move |&slot| self.t.parents[slot] as usize == named)
    }
}

fn is_occupied(t: &Tables, slot: usize) -> bool {
    t.sequences.get(slot).is_some_and(|&sequence| sequence != NONE_REF)
}

fn ring(t: &Tables, slot: usize) -> Vec<usize> {
    let mut way = vec![slot];
    let mut next = t.parents[slot] as usize;
    while next != slot {
        if way.len() == t.n() || !is_occupied(t, next) {
            return Vec::new();
        }
        way.push(next);
        next = t.parents[next] as usize;
    }
    way
}

impl fmt::Display for Beneath {
    fn fmt(&self, f: &mut fmt::Formatter) -> fmt::Result {
        let counts: Vec<String> =
            self.counts().map(|(name, times)| format!("{name} {times}")).collect();
        let (ways, others) = counts.split_at(4);
        writeln!(f, "  asked for blocks that are {},", ways.join(", "))?;
        writeln!(f, "    {}", others.join(", "))
    }
}
