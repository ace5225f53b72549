//! The head screen: a model, written from the change request's sentences alone (S-2), since the original
//! has no such function. It sorts a list of keys.

use crate::tables::{Hash, NONE_REF, Tables};
use std::cmp::Reverse;

/// A record of the screen, as it lies in the caller's list.
#[derive(Debug, Clone, Copy, PartialEq, Eq)]
#[repr(C)]
pub struct Row {
    pub tip: u32,
    pub sequence: u32,
    /// 1 for a connected head, 0 for a stored one.
    pub kind: u32,
    pub anchor: u32,
}

/// By what a head stands: the tip's sequence, highest first, then the lowest hash, then the lowest
/// head slot.
pub type Key = (Reverse<u32>, Hash, usize);

/// The records of the heads in use, in their order.
pub fn screen(t: &Tables) -> Vec<Row> {
    keys(t).into_iter().map(|(Reverse(sequence), _, head)| row(t, head, sequence)).collect()
}

/// The keys of the heads in use, in their order.
pub fn keys(t: &Tables) -> Vec<Key> {
    let in_use = (0..t.m()).filter(|&head| t.tips[head] != NONE_REF);
    let mut keys: Vec<Key> = in_use.map(|head| key(t, head)).collect();
    keys.sort();
    keys
}

/// A tip that is empty or out of range has the sequence NONE_REF and a zero hash.
fn key(t: &Tables, head: usize) -> Key {
    let tip = t.tips[head] as usize;
    match t.sequences.get(tip) {
        None | Some(&NONE_REF) => (Reverse(NONE_REF), [0; 32], head),
        Some(&sequence) => (Reverse(sequence), t.block(tip).hash, head),
    }
}

/// What the head keeps, and the sequence that its tip shows.
fn row(t: &Tables, head: usize, sequence: u32) -> Row {
    let kind = u32::from(t.connected[head] & 1);
    Row { tip: t.tips[head], sequence, kind, anchor: t.tails[head] }
}
