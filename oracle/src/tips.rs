//! Random tables for the head screen: heads whose tips have one sequence, few, rising or falling ones,
//! with hashes that differ in a byte or in none, and tips that are shared, empty or out of range. No
//! function of the original's runs on them, so they are of every size.

use crate::generate::{self, TOP, any_slot, arbitrary};
use crate::random::Random;
use crate::tables::{NONE_REF, Tables};

/// How many tables in a hundred are those of the other modes, many of them as calls leave them.
const OTHERS: usize = 20;

/// One table in so many has the most heads; of the others the numbers come in turn.
const LARGE: u64 = 8;

const MOST: usize = 64;

/// Gives the tip of a head its sequence, by the head's slot.
type Order = fn(&mut Random, usize) -> u32;

const ORDERS: [Order; 6] = [
    |_, _| 7,
    |r, _| r.below(3) as u32,
    |r, _| TOP - r.below(3) as u32,
    |_, head| head as u32,
    |_, head| TOP - head as u32,
    |r, _| r.word() as u32,
];

/// The table of a round.
pub fn tables(r: &mut Random, round: u64) -> Tables {
    if r.percent(OTHERS) {
        return generate::tables(r);
    }
    let most = r.pick(&[12, 128, 1024]);
    let n = 1 + r.below(most);
    let m = if round.is_multiple_of(LARGE) { MOST } else { 2 + round as usize % (MOST - 1) };
    let mut t = arbitrary(r, n, m);
    tips(r, &mut t);
    sequences(r, &mut t);
    t
}

fn tips(r: &mut Random, t: &mut Tables) {
    let (n, m) = (t.n(), t.m());
    let unused = r.pick(&[0, 0, 10, 50, 100]);
    let strays = r.pick(&[0, 0, 20, 100]);
    let shared = r.pick(&[0, 10, 50]);
    for head in 0..m {
        t.tips[head] = match r.below(n) {
            _ if r.percent(unused) => NONE_REF,
            _ if r.percent(strays) => any_slot(r, n),
            _ if r.percent(shared) => t.tips[r.below(m)],
            slot => slot as u32,
        };
    }
}

/// The blocks of the tips are of one order, and some are taken away; their hashes stay.
fn sequences(r: &mut Random, t: &mut Tables) {
    let order = r.pick(&ORDERS);
    let empty = r.pick(&[0, 0, 5, 30]);
    for head in 0..t.m() {
        if let Some(sequence) = t.sequences.get_mut(t.tips[head] as usize) {
            *sequence = if r.percent(empty) { NONE_REF } else { order(r, head) };
        }
    }
}
