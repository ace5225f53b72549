//! What is timed: for each case the lists that make its tables from fresh ones, and the timed list.

use crate::calls::{Block, List};
use crate::shape::Shape;
use crate::tree::Node;

pub struct Case {
    pub setup: Vec<List>,
    pub timed: List,
    /// The refusal that all calls of the timed list get, or none of them.
    pub refusal: Option<u8>,
}

pub struct Kind {
    pub name: &'static str,
    /// The case at n block slots and m head slots, where there is one.
    pub at: fn(usize, usize) -> Option<Case>,
}

pub const KINDS: [Kind; 21] = [
    Kind { name: "admit: extend", at: extend },
    Kind { name: "admit: fork", at: fork },
    Kind { name: "admit: full heads, one evicted", at: evict },
    Kind { name: "admit: late parent of one tail", at: late },
    Kind { name: "admit: late parent of many tails", at: late_of_many },
    Kind { name: "admit: refused as known", at: known },
    Kind { name: "admit: refused as full", at: full },
    Kind { name: "promote", at: promote },
    Kind { name: "remove: leaf", at: leaf },
    Kind { name: "remove: leaf, bushy tree", at: bushy_leaf },
    Kind { name: "remove: deep subtree", at: subtree },
    Kind { name: "under: whole tree", at: under_tree },
    Kind { name: "under: deep subtree", at: under_subtree },
    Kind { name: "under: leaf", at: under_leaf },
    Kind { name: "screen", at: screen },
    Kind { name: "screen, heads in no order", at: scattered_screen },
    Kind { name: "timer", at: timer },
    Kind { name: "deadline", at: deadline },
    Kind { name: "restart", at: restart },
    Kind { name: "restart, bushy tree", at: bushy_restart },
    Kind { name: "fresh", at: fresh },
];

fn case(shape: &Shape, timed: List) -> Option<Case> {
    Some(Case { setup: shape.setup(), timed, refusal: None })
}

/// How many blocks are admitted in a list.
fn some(n: usize) -> usize {
    (n / 8).min(16)
}

/// Each tip in turn gets a child.
fn extend(n: usize, m: usize) -> Option<Case> {
    let mut shape = Shape::long(n - some(n), m);
    let mut tips = shape.tips();
    let mut calls = Vec::new();
    for k in 0..some(n) {
        let at = k % tips.len();
        let block = shape.tree.child_of(&tips[at]);
        tips[at] = Node { slot: u32::MAX, sequence: block.sequence, hash: block.hash };
        calls.push(block);
    }
    case(&shape, List::Admit(calls))
}

/// The calls that fork the trunk at its upper end, below the tip.
fn forks(shape: &mut Shape, count: usize) -> List {
    let top = shape.trunk.len() - 2;
    List::Admit((0..count).map(|_| shape.tree.child_of(&shape.trunk[top])).collect())
}

/// Half of the heads are free, and some of them get taken.
fn fork(n: usize, m: usize) -> Option<Case> {
    let mut shape = Shape::long(n - some(n), m / 2);
    let calls = forks(&mut shape, some(n).min(m / 2));
    case(&shape, calls)
}

/// No head is free: each fork evicts a branch.
fn evict(n: usize, m: usize) -> Option<Case> {
    let mut shape = Shape::long(n - 1, m);
    let calls = forks(&mut shape, some(n).min(m - 1));
    if shape.heads() < m { None } else { case(&shape, calls) }
}

/// A chain comes from its upper end down, so that each block is the parent that a tail has missed.
fn late(n: usize, m: usize) -> Option<Case> {
    let waiting = n / 8;
    let mut shape = Shape::long(n - some(n) - waiting, m - 2);
    let at = shape.trunk[0].sequence;
    let mut calls: Vec<Block> = Vec::new();
    let mut previous = shape.tree.hash();
    for k in 0..some(n) {
        let block = shape.tree.block(at + k as u32, previous);
        previous = block.hash;
        calls.push(block);
    }
    let block = shape.tree.block(at + some(n) as u32, previous);
    let tail = shape.tree.admit(block);
    shape.tree.chain(&tail, waiting - 1);
    calls.reverse();
    case(&shape, List::Admit(calls))
}

/// Half of the heads have missed the one block that comes.
fn late_of_many(n: usize, m: usize) -> Option<Case> {
    let mut shape = Shape::long(n / 2, m / 2);
    let previous = shape.tree.hash();
    let block = shape.tree.block(shape.trunk[0].sequence, previous);
    let tails = (m - m / 2 - 1).min(n / 2 - 1);
    let len = (n / 2 - 1) / tails;
    for _ in 0..tails {
        let tail = shape.tree.block(block.sequence + 1, block.hash);
        let tail = shape.tree.admit(tail);
        shape.tree.chain(&tail, len - 1);
    }
    case(&shape, List::Admit(vec![block]))
}

/// Blocks from all over the table come again.
fn known(n: usize, m: usize) -> Option<Case> {
    let shape = Shape::long(n, m);
    let calls = shape.tree.admitted.iter().step_by(n / 32).cloned().collect();
    Some(Case { refusal: Some(6), ..case(&shape, List::Admit(calls))? })
}

/// Children of the tips come, and no slot is free.
fn full(n: usize, m: usize) -> Option<Case> {
    let mut shape = Shape::long(n, m);
    let tips = shape.tips();
    let calls = (0..32).map(|k| shape.tree.child_of(&tips[k % tips.len()])).collect();
    Some(Case { refusal: Some(7), ..case(&shape, List::Admit(calls))? })
}

/// The active chain grows.
fn promote(n: usize, m: usize) -> Option<Case> {
    let shape = Shape::long(n, m);
    let next = shape.trunk[shape.active..].iter().map(|node| node.slot);
    case(&shape, List::Promote(next.take(some(n)).collect()))
}

fn leaves(shape: &Shape) -> Vec<u32> {
    shape.leaves().take(4).map(|node| node.slot).collect()
}

fn leaf(n: usize, m: usize) -> Option<Case> {
    let shape = Shape::long(n, m);
    case(&shape, List::Remove(leaves(&shape)))
}

fn bushy_leaf(n: usize, m: usize) -> Option<Case> {
    let shape = Shape::bushy(n, m);
    case(&shape, List::Remove(leaves(&shape)))
}

/// Half of the blocks hang under one: a chain upon an active block, with branches upon the chain.
fn deep(n: usize, m: usize) -> (Shape, u32) {
    let mut shape = Shape::long(n / 2, m / 2);
    let below = shape.trunk[shape.active - 1];
    let chain = shape.tree.chain(&below, n / 4);
    let branches = (m / 2 - 1).min(n / 8);
    for k in 0..branches {
        shape.tree.chain(&chain[(k + 1) * chain.len() / 2 / branches], n / 4 / branches);
    }
    (shape, chain[0].slot)
}

fn subtree(n: usize, m: usize) -> Option<Case> {
    let (shape, root) = deep(n, m);
    case(&shape, List::Remove(vec![root]))
}

/// All but the branches that have no parent hang under the chain's first block.
pub fn under_tree(n: usize, m: usize) -> Option<Case> {
    let shape = Shape::long(n, m);
    case(&shape, List::Under(vec![shape.trunk[0].slot; 4]))
}

fn under_subtree(n: usize, m: usize) -> Option<Case> {
    let (shape, root) = deep(n, m);
    case(&shape, List::Under(vec![root; 4]))
}

fn under_leaf(n: usize, m: usize) -> Option<Case> {
    let shape = Shape::long(n, m);
    case(&shape, List::Under(leaves(&shape)))
}

fn screen(n: usize, m: usize) -> Option<Case> {
    case(&Shape::long(n, m), List::Screen(64))
}

fn scattered_screen(n: usize, m: usize) -> Option<Case> {
    case(&Shape::scattered(n, m), List::Screen(64))
}

/// So many timer calls, each of which has a head to ask for.
fn asking(calls: u64) -> List {
    List::Timer((0..calls).map(|k| (5000 + 10 * k, Some(5))).collect())
}

/// The stored heads are asked for in turn.
fn timer(n: usize, m: usize) -> Option<Case> {
    case(&Shape::long(n, m), asking(256))
}

/// Every stored head has been asked for.
fn deadline(n: usize, m: usize) -> Option<Case> {
    let mut case = case(&Shape::long(n, m), List::Deadline(vec![Some(5); 256]))?;
    case.setup.push(asking(m as u64));
    Some(case)
}

fn restart(n: usize, m: usize) -> Option<Case> {
    case(&Shape::long(n, m), List::Restart(vec![9000, 9001]))
}

fn bushy_restart(n: usize, m: usize) -> Option<Case> {
    case(&Shape::bushy(n, m), List::Restart(vec![9000, 9001]))
}

fn fresh(n: usize, m: usize) -> Option<Case> {
    case(&Shape::long(n, m), List::Fresh(4))
}
