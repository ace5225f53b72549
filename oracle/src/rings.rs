//! Random tables for what hangs under a block: trees, and what damage makes of the way down, which
//! are blocks that are their own parents, rings, trees upon rings, and empty slots in between. No
//! function of the original's runs on them, so they are of every size.

use crate::generate::{TOP, any_slot, arbitrary};
use crate::random::Random;
use crate::tables::{NONE_REF, Tables};

/// One table in so many is of any size; the others are small.
const LARGE: u64 = 8;

const LARGEST: usize = 1024;
const SMALL: usize = 12;

/// Gives the blocks their parents; they come in a random order.
type Shape = fn(&mut Random, &mut Tables, &[usize]);

const SHAPES: [Shape; 9] =
    [star, forest, own_parents, ring, whole_ring, trees_on_ring, gaps, chain, strays];

/// The table of a round. Those of any size take the numbers of block slots, from the largest down, and
/// the shapes in turn: the first is the largest star, and in time every shape comes with every number
/// of slots, since 9 and 1,024 have no common factor.
pub fn tables(r: &mut Random, round: u64) -> Tables {
    let turn = (round / LARGE) as usize;
    let (n, m, shape) = match round % LARGE {
        0 => (LARGEST - turn % LARGEST, 2 + r.below(63), SHAPES[turn % SHAPES.len()]),
        _ => (1 + r.below(SMALL), 2 + r.below(4), r.pick(&SHAPES)),
    };
    let mut t = arbitrary(r, n, m);
    let mut order: Vec<usize> = (0..n).collect();
    r.shuffle(&mut order);
    shape(r, &mut t, &order);
    t
}

/// The slots to ask for: all of a small table, some that are parents of a large one, and any one.
pub fn slots(r: &mut Random, t: &Tables) -> Vec<u32> {
    let n = t.n();
    let mut slots: Vec<u32> = match n {
        0..=SMALL => (0..n as u32).collect(),
        _ => (0..3).map(|_| t.parents[r.below(n)]).collect(),
    };
    slots.push(any_slot(r, n));
    slots
}

/// Puts a block in every empty slot.
fn fill(r: &mut Random, t: &mut Tables) {
    for sequence in t.sequences.iter_mut().filter(|sequence| **sequence == NONE_REF) {
        *sequence = r.word() as u32 % TOP;
    }
}

/// One block is its own parent, and all others are its children: nothing more can hang under a block.
fn star(r: &mut Random, t: &mut Tables, order: &[usize]) {
    fill(r, t);
    t.parents.fill(order[0] as u32);
}

/// Each block is a root, or the child of an earlier one.
fn forest(r: &mut Random, t: &mut Tables, order: &[usize]) {
    fill(r, t);
    let roots = r.pick(&[0, 5, 30]);
    let forks = r.pick(&[5, 50, 100]);
    for (placed, &slot) in order.iter().enumerate() {
        t.parents[slot] = match placed {
            0 => NONE_REF,
            _ if r.percent(roots) => r.pick(&[NONE_REF, t.n() as u32]),
            _ if r.percent(forks) => order[r.below(placed)] as u32,
            _ => order[placed - 1] as u32,
        };
    }
}

fn own_parents(r: &mut Random, t: &mut Tables, order: &[usize]) {
    forest(r, t, order);
    for _ in 0..1 + r.below(3) {
        let slot = r.pick(order);
        t.parents[slot] = slot as u32;
    }
}

/// A ring of some blocks of a forest, wherever they stand in it.
fn ring(r: &mut Random, t: &mut Tables, order: &[usize]) {
    forest(r, t, order);
    let mut some = order.to_vec();
    r.shuffle(&mut some);
    close(t, &some[..part(r, order.len())]);
}

fn whole_ring(r: &mut Random, t: &mut Tables, order: &[usize]) {
    fill(r, t);
    close(t, order);
}

/// All that is not on the ring hangs upon it.
fn trees_on_ring(r: &mut Random, t: &mut Tables, order: &[usize]) {
    fill(r, t);
    let on_ring = part(r, order.len());
    close(t, &order[..on_ring]);
    for placed in on_ring..order.len() {
        t.parents[order[placed]] = order[r.below(placed)] as u32;
    }
}

/// Some slots are empty and still name a parent, and are named by others.
fn gaps(r: &mut Random, t: &mut Tables, order: &[usize]) {
    let whole: Shape = r.pick(&[forest as Shape, trees_on_ring]);
    whole(r, t, order);
    for _ in 0..1 + r.below(1 + order.len() / 3) {
        t.sequences[r.pick(order)] = NONE_REF;
    }
}

/// As many levels as there can be without a ring.
fn chain(r: &mut Random, t: &mut Tables, order: &[usize]) {
    whole_ring(r, t, order);
    t.parents[order[0]] = NONE_REF;
}

/// The table stays as it is: any parents, and some empty slots.
fn strays(_: &mut Random, _: &mut Tables, _: &[usize]) {}

/// Fewer than all, and at least two where there are three or more.
fn part(r: &mut Random, all: usize) -> usize {
    let few = r.pick(&[3, all]);
    if all < 3 { 1 } else { 2 + r.below(few.min(all - 2)) }
}

/// Makes each block the parent of the next, and the last that of the first.
fn close(t: &mut Tables, ring: &[usize]) {
    for (at, &slot) in ring.iter().enumerate() {
        t.parents[ring[(at + 1) % ring.len()]] = slot as u32;
    }
}
