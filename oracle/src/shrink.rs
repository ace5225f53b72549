//! From a case that differs to a smaller one that still does: fewer slots, emptied slots, smaller
//! numbers and plainer hashes, as long as any such step keeps a difference.

use crate::args::Field;
use crate::functions::Case;
use crate::random::Random;
use crate::sizes::{BLOCK_SLOTS, HEAD_SLOTS};
use crate::tables::{Block, Hash, Head, NONE_REF, Tables};
use std::time::{Duration, Instant};

/// No step is tried after this time.
const PATIENCE: Duration = Duration::from_secs(20);

/// How many choices of the slots to keep are tried for each smaller size.
const CHOICES: usize = 60;

pub fn shrink(case: Case) -> Case {
    let end = Instant::now() + PATIENCE;
    let mut shrinker = Shrinker { cost: cost(&case), case, end };
    loop {
        let before = shrinker.cost;
        shrinker.plainer_shape();
        shrinker.fewer_blocks();
        shrinker.fewer_heads();
        shrinker.emptier();
        shrinker.lower_sequences();
        shrinker.plainer_hashes();
        shrinker.plainer_fields();
        if shrinker.cost == before {
            return shrinker.case;
        }
    }
}

struct Shrinker {
    case: Case,
    cost: (usize, u128),
    end: Instant,
}

impl Shrinker {
    /// Takes the changed case if it costs less and still differs.
    fn attempt(&mut self, change: impl FnOnce(&mut Case)) -> bool {
        if Instant::now() > self.end {
            return false;
        }
        let mut case = self.case.clone();
        change(&mut case);
        let cost = cost(&case);
        let better = cost < self.cost && case.difference().is_some();
        if better {
            (self.case, self.cost) = (case, cost);
        }
        better
    }

    fn plainer_shape(&mut self) {
        self.attempt(|case| case.args.misfit = None);
        self.attempt(|case| case.args.hash_length = 32);
        self.attempt(|case| case.args.previous_length = 32);
    }

    fn fewer_blocks(&mut self) {
        for size in BLOCK_SLOTS {
            let t = &self.case.tables;
            if size >= t.n() {
                return;
            }
            let used = (0..t.n()).map(|slot| t.block(slot) != Block::EMPTY).collect();
            if self.keep_some(size, used, keep_blocks) {
                return;
            }
        }
    }

    fn fewer_heads(&mut self) {
        for size in HEAD_SLOTS {
            let t = &self.case.tables;
            if size >= t.m() {
                return;
            }
            let used = (0..t.m()).map(|slot| t.head(slot) != Head::EMPTY).collect();
            if self.keep_some(size, used, keep_heads) {
                return;
            }
        }
    }

    /// Tries to keep so many slots: the used ones first, then random choices.
    fn keep_some(&mut self, size: usize, used: Vec<bool>, keep: fn(&mut Case, &[usize])) -> bool {
        let mut order: Vec<usize> = (0..used.len()).collect();
        order.sort_by_key(|&slot| !used[slot]);
        let mut random = Random::new(size as u64);
        for _ in 0..CHOICES {
            let mut kept = order[..size].to_vec();
            kept.sort_unstable();
            if self.attempt(|case| keep(case, &kept)) {
                return true;
            }
            random.shuffle(&mut order);
        }
        false
    }

    /// Empties slots, in runs that become shorter.
    fn emptier(&mut self) {
        let (n, m) = (self.case.tables.n(), self.case.tables.m());
        let mut run = n.max(m);
        while run > 0 {
            for from in (0..n).step_by(run) {
                self.attempt(|case| {
                    (from..n.min(from + run)).for_each(|at| case.tables.set_block(at, Block::EMPTY))
                });
            }
            for from in (0..m).step_by(run) {
                self.attempt(|case| {
                    (from..m.min(from + run)).for_each(|at| case.tables.set_head(at, Head::EMPTY))
                });
            }
            run /= 2;
        }
    }

    /// Lowers all sequences by as much as the least allows.
    fn lower_sequences(&mut self) {
        let mut least = NONE_REF;
        each_field(&mut self.case.clone(), &mut |field| {
            if let Field::Sequence(sequence) = field {
                least = least.min(*sequence);
            }
        });
        self.attempt(|case| {
            each_field(case, &mut |field| {
                if let Field::Sequence(sequence) = field
                    && *sequence != NONE_REF
                {
                    *sequence -= least;
                }
            });
        });
    }

    /// Zeroes each byte in all hashes at once, and writes each hash, wherever it stands, as one of
    /// equal bytes.
    fn plainer_hashes(&mut self) {
        for at in 0..32 {
            self.attempt(|case| {
                each_field(case, &mut |field| {
                    if let Field::Hash(hash) = field {
                        hash[at] = 0;
                    }
                });
            });
        }
        let mut hashes: Vec<Hash> = Vec::new();
        each_field(&mut self.case.clone(), &mut |field| {
            if let Field::Hash(hash) = field {
                hashes.push((&*hash).try_into().expect("32 bytes"));
            }
        });
        hashes.sort_unstable();
        hashes.dedup();
        for old in &hashes {
            for byte in 0..=hashes.len().min(255) as u8 {
                self.attempt(|case| {
                    each_field(case, &mut |field| {
                        if let Field::Hash(hash) = field
                            && hash == old
                        {
                            hash.fill(byte);
                        }
                    });
                });
            }
        }
    }

    /// Tries the plainer values of each field in turn.
    fn plainer_fields(&mut self) {
        let mut fields = 0;
        each_field(&mut self.case.clone(), &mut |_| fields += 1);
        for at in 0..fields {
            let mut step = 0;
            let mut more = true;
            while more {
                self.attempt(|case| {
                    let mut seen = 0;
                    each_field(case, &mut |field| {
                        if seen == at {
                            more = plainer(field, step);
                        }
                        seen += 1;
                    });
                });
                more &= Instant::now() <= self.end;
                step += 1;
            }
        }
    }
}

/// What is to become small, the number of slots first.
fn cost(case: &Case) -> (usize, u128) {
    let args = &case.args;
    let mut sum = u128::from(args.misfit.is_some())
        + u128::from(args.hash_length != 32)
        + u128::from(args.previous_length != 32);
    let mut case = case.clone();
    each_field(&mut case, &mut |field| {
        sum += match field {
            Field::BlockSlot(&mut NONE_REF) | Field::Sequence(&mut NONE_REF) => 0,
            Field::BlockSlot(number) | Field::Sequence(number) => 1 + u128::from(*number),
            Field::HeadSlot(number) => u128::from(*number),
            Field::Byte(byte) => u128::from(*byte),
            Field::Time(time) => u128::from(*time),
            Field::Change(change) => u128::from(change.unsigned_abs()),
            Field::Hash(hash) if hash.iter().all(|byte| *byte == hash[0]) => u128::from(hash[0]),
            Field::Hash(hash) => hash.iter().map(|byte| 1000 + u128::from(*byte)).sum(),
        }
    });
    (case.tables.n() + case.tables.m(), sum)
}

fn each_field(case: &mut Case, see: &mut impl FnMut(Field)) {
    case.tables.each_field(see);
    case.args.each_field(see);
}

/// Makes the field plainer in the way of this number, and says whether there is a next one.
fn plainer(field: Field, step: usize) -> bool {
    match field {
        Field::BlockSlot(n) | Field::Sequence(n) => {
            *n = [NONE_REF, 0, 1, *n / 2, n.saturating_sub(1)][step];
            step < 4
        }
        Field::HeadSlot(n) => {
            *n = [0, 1, n.saturating_sub(1)][step];
            step < 2
        }
        Field::Byte(n) => {
            *n = [0, 1, 2, *n / 2, n.saturating_sub(1)][step];
            step < 4
        }
        Field::Time(n) => {
            *n = [0, 1, 2, *n / 2, n.saturating_sub(1)][step];
            step < 4
        }
        Field::Change(n) => {
            *n = [0, 1, -1, *n / 2, *n - n.signum()][step];
            step < 4
        }
        Field::Hash(hash) => {
            let byte = &mut hash[step / 4];
            *byte = [0, 1, *byte / 2, byte.saturating_sub(1)][step % 4];
            step < 127
        }
    }
}

/// Keeps these block slots alone. What referred to another becomes none, and what was out of range
/// stays as far out of it.
fn keep_blocks(case: &mut Case, kept: &[usize]) {
    let old = case.tables.clone();
    let gone = (old.n() - kept.len()) as u32;
    case.tables = Tables::empty(kept.len(), old.m());
    for (slot, &was) in kept.iter().enumerate() {
        case.tables.set_block(slot, old.block(was));
    }
    for slot in 0..old.m() {
        case.tables.set_head(slot, old.head(slot));
    }
    case.tables.active = old.active;
    each_field(case, &mut |field| {
        if let Field::BlockSlot(slot) = field {
            *slot = match *slot {
                NONE_REF => NONE_REF,
                out if out as usize >= old.n() => out - gone,
                was => {
                    let now = kept.iter().position(|&slot| slot == was as usize);
                    now.map_or(NONE_REF, |slot| slot as u32)
                }
            };
        }
    });
}

/// Keeps these head slots alone.
fn keep_heads(case: &mut Case, kept: &[usize]) {
    let old = case.tables.clone();
    case.tables = old.with_empty_heads(kept.len());
    for (slot, &was) in kept.iter().enumerate() {
        case.tables.set_head(slot, old.head(was));
    }
}
