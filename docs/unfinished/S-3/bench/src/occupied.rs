//! The occupied total, on the port alone: a call beside a count of the lent sequences in Rust.

use crate::cases::occupied_total;
use crate::measure::{Effort, Pair, Two, clock, in_turn, timed};
use crate::port::Port;
use crate::under::HEADS;
use station::{NONE_REF, Tables};
use std::hint::black_box;

/// A count and a call, on the tables of the case at this n.
pub struct Totals {
    pub n: usize,
    pub times: Two,
}

pub fn beside_counting(n: usize, effort: Effort) -> Option<Totals> {
    let case = occupied_total(n, HEADS)?;
    let mut pair = Pair::new(Port::new(n, HEADS), Port::new(n, HEADS), &case.setup);
    let tables = pair.restored().tables();
    assert_eq!(tables.occupied_total(), Ok(counted(tables)), "the totals differ");
    let (calls, clock) = (case.timed.len(), clock());
    let count = || _ = black_box(counted(black_box(tables)));
    let ask = || _ = black_box(black_box(tables).occupied_total());
    let counting = || timed(calls, clock, || (0..calls).for_each(|_| count()));
    let asking = || timed(calls, clock, || (0..calls).for_each(|_| ask()));
    Some(Totals { n, times: Two::of(in_turn(effort, counting, asking)) })
}

/// How many slots have a sequence.
#[inline(never)]
fn counted(tables: &Tables) -> usize {
    tables.parts().sequences.iter().filter(|sequence| **sequence != NONE_REF).count()
}
