//! What hangs under a block, on the port alone: a call beside the port's own marking of the same
//! blocks, and a visit on the worst table beside one on a table that calls have made.

use crate::calls::List;
use crate::cases::{Case, under_tree};
use crate::measure::{Effort, Pair, clock, in_turn, timed};
use crate::port::Port;
use crate::stack::deepest;
use crate::stats::Spread;
use station::{BlockSlot, Parts, Sequence, Tables, Under};
use std::hint::black_box;
use std::time::Duration;

/// The head slots of the tables.
pub const HEADS: usize = 16;

/// Nanoseconds of two in turn, and the second as a multiple of the first.
pub struct Two {
    pub first: Spread,
    pub second: Spread,
    pub ratio: Spread,
}

impl Two {
    fn of((first, second): (Vec<f64>, Vec<f64>)) -> Two {
        let ratio = second.iter().zip(&first).map(|(second, first)| second / first).collect();
        Two { first: Spread::of(first), second: Spread::of(second), ratio: Spread::of(ratio) }
    }
}

/// The marking of the blocks that the case asks for, and what hangs under them, a call each.
pub fn beside_marking(case: Case, n: usize, effort: Effort) -> Option<Two> {
    let asked = Asked::of(case, n)?;
    asked.agree();
    let clock = clock();
    Some(Two::of(in_turn(effort, || asked.mark(clock), || asked.ask(clock))))
}

/// How many visits the whole tree and the worst table take, and a visit of each.
pub struct Visits {
    pub n: usize,
    pub tree: usize,
    pub worst: usize,
    pub times: Two,
}

/// Those of the slowest of the worst tables.
pub fn visits(n: usize, effort: Effort) -> Option<Visits> {
    let all = PLACES.iter().filter_map(|place| visits_at(n, place(n), effort));
    all.max_by(|a, b| a.times.ratio.median.total_cmp(&b.times.ratio.median))
}

fn visits_at(n: usize, own_parent: usize, effort: Effort) -> Option<Visits> {
    let (tree, worst) = (Asked::of(under_tree(n, HEADS)?, n)?, Asked::worst(n, HEADS, own_parent));
    let most = Under { blocks: n * n - n + 1, highest: Sequence(n as u32 - 1) };
    assert_eq!(worst.answer(), most, "the worst table's answer is another");
    let [on_tree, on_worst] = [tree.answer().blocks, most.blocks];
    let clock = clock();
    let visit = |asked: &Asked, visits: usize| asked.ask(clock) / visits as f64;
    let times = in_turn(effort, || visit(&tree, on_tree), || visit(&worst, on_worst));
    Some(Visits { n, tree: on_tree, worst: on_worst, times: Two::of(times) })
}

/// The bytes of stack of the deepest of the worst tables.
pub fn worst_stack(n: usize, m: usize) -> usize {
    let depths = PLACES.iter().map(|place| {
        let Asked { tables, slots } = Asked::worst(n, m, place(n));
        let mut pair = Pair::new(Port::of(tables.clone()), Port::of(tables), &[]);
        deepest(&List::Under(vec![slots[0].0]), &mut pair)
    });
    depths.max().expect("three places")
}

/// The slot of the block that is its own parent: first, in the middle and last among its children,
/// before or after which the way down through itself may cost more.
const PLACES: [fn(usize) -> usize; 3] = [|_| 0, |n| n / 2, |n| n - 1];

/// Some blocks of tables.
struct Asked {
    tables: Tables,
    slots: Vec<BlockSlot>,
}

impl Asked {
    /// Those that the case asks for.
    fn of(case: Case, n: usize) -> Option<Asked> {
        let List::Under(slots) = case.timed else { return None };
        let mut pair = Pair::new(Port::new(n, HEADS), Port::new(n, HEADS), &case.setup);
        let tables = pair.restored().tables().clone();
        Some(Asked { tables, slots: slots.into_iter().map(BlockSlot).collect() })
    }

    /// The block that is its own parent, where all others are its children.
    fn worst(n: usize, m: usize, own_parent: usize) -> Asked {
        let slot = own_parent as u32;
        let fresh = Tables::new(n, m).expect("sizes in range").into_parts();
        let parts = Parts { parents: vec![slot; n], sequences: (0..n as u32).collect(), ..fresh };
        let tables = Tables::from_parts(parts).expect("parts that fit");
        Asked { tables, slots: vec![BlockSlot(slot)] }
    }

    /// What hangs under the first of the blocks.
    fn answer(&self) -> Under {
        self.tables.under(self.slots[0]).expect("a block")
    }

    /// The number and the highest sequence are those of the marked blocks.
    fn agree(&self) {
        for slot in &self.slots {
            let under = self.tables.under(*slot).expect("a block");
            let marked = self.tables.subtree(*slot);
            assert_eq!(under.blocks, marked.len(), "the numbers differ");
            let blocks = marked.into_iter().filter_map(|slot| self.tables.get(slot));
            let highest = blocks.map(|block| block.sequence).max();
            assert_eq!(Some(under.highest), highest, "the highest sequences differ");
        }
    }

    /// Nanoseconds of a marking.
    fn mark(&self, clock: Duration) -> f64 {
        let mark = |slot: &BlockSlot| _ = black_box(self.tables.subtree(black_box(*slot)));
        timed(self.slots.len(), clock, || self.slots.iter().for_each(mark))
    }

    /// Nanoseconds of an answer.
    fn ask(&self, clock: Duration) -> f64 {
        let ask = |slot: &BlockSlot| _ = black_box(self.tables.under(black_box(*slot)));
        timed(self.slots.len(), clock, || self.slots.iter().for_each(ask))
    }
}
