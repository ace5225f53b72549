//! Random lists of calls, each call made for the tables that those before it have left, so that
//! much happens: branches grow and fork, parents come late or never, heads run out, blocks come
//! again, clocks rise and jump; and some calls are to be refused.

use crate::calls::Call;
use crate::generate::{Hashes, LENGTHS, TOP, any_slot, given_span, time};
use crate::random::Random;
use crate::tables::{Block, Hash, NONE_REF, Tables};

const BLOCK_SLOTS: [(usize, usize); 12] = [
    (1, 20),
    (2, 50),
    (3, 90),
    (4, 140),
    (5, 150),
    (6, 150),
    (8, 150),
    (12, 120),
    (33, 60),
    (64, 30),
    (256, 5),
    (1024, 1),
];
const HEAD_SLOTS: [(usize, usize); 7] =
    [(2, 250), (3, 250), (4, 200), (5, 120), (8, 100), (16, 50), (64, 30)];

#[derive(Clone, Copy)]
enum Kind {
    Admit,
    Promote,
    Remove,
    Timer,
    Deadline,
    Restart,
}

use Kind::{Admit, Deadline, Promote, Remove, Restart, Timer};

/// How often each kind of call comes: mostly growth, much removal, and many timer calls.
const KINDS: [[(Kind, usize); 6]; 3] = [
    [(Admit, 84), (Promote, 6), (Remove, 2), (Timer, 4), (Deadline, 2), (Restart, 2)],
    [(Admit, 56), (Promote, 12), (Remove, 14), (Timer, 8), (Deadline, 4), (Restart, 6)],
    [(Admit, 46), (Promote, 4), (Remove, 2), (Timer, 38), (Deadline, 8), (Restart, 2)],
];

#[derive(Clone, Copy)]
enum Arrival {
    /// A child of a tip, or of any block.
    Extend,
    Fork,
    /// A block whose parent is not there.
    Stranger,
    /// The parent that a stored head waits for.
    Late,
    /// A block that came before.
    Again,
    /// One that is almost a child, or almost another block.
    Near,
    /// One to be refused for its own sake.
    Odd,
}

use Arrival::{Again, Extend, Fork, Late, Near, Odd, Stranger};

/// How often each kind of block comes: some of all, long branches, many branches, children first.
const ARRIVALS: [[(Arrival, usize); 7]; 4] = [
    [(Extend, 30), (Fork, 20), (Stranger, 12), (Late, 20), (Again, 6), (Near, 6), (Odd, 6)],
    [(Extend, 91), (Fork, 2), (Stranger, 1), (Late, 2), (Again, 1), (Near, 1), (Odd, 2)],
    [(Extend, 14), (Fork, 44), (Stranger, 18), (Late, 12), (Again, 6), (Near, 4), (Odd, 2)],
    [(Extend, 8), (Fork, 10), (Stranger, 8), (Late, 62), (Again, 6), (Near, 4), (Odd, 2)],
];

/// The sizes of a list's tables: n, m and the number of its calls.
pub fn sizes(r: &mut Random) -> (usize, usize, usize) {
    let n = r.weighted(&BLOCK_SLOTS);
    let m = if n >= 256 { r.pick(&[8, 16, 64, 64]) } else { r.weighted(&HEAD_SLOTS) };
    let calls = match n {
        0..=12 => 5 + r.below(60),
        13..=64 => n + r.below(3 * n),
        _ => n + n / 3 + r.below(n),
    };
    (n, m, calls)
}

pub struct Script {
    kinds: [(Kind, usize); 6],
    arrivals: [(Arrival, usize); 7],
    hashes: Hashes,
    /// Every block that has been sent.
    sent: Vec<Sent>,
    clock: u64,
    lowest: u32,
}

#[derive(Clone, Copy)]
struct Sent {
    sequence: u32,
    hash: Hash,
    previous: Hash,
}

impl Script {
    /// A script for n block slots; large tables grow long branches, so that they fill.
    pub fn new(r: &mut Random, n: usize) -> Script {
        let large = n >= 256;
        let lowest = match r.below(6) {
            0 => 0,
            1 => TOP - r.below(8) as u32,
            2 => r.word() as u32 % TOP,
            _ => r.below(6) as u32,
        };
        Script {
            kinds: KINDS[if large { 0 } else { r.below(3) }],
            arrivals: if large && r.percent(75) { ARRIVALS[1] } else { r.pick(&ARRIVALS) },
            hashes: Hashes::new(r),
            sent: Vec::new(),
            clock: r.below(10) as u64,
            lowest,
        }
    }

    /// A script of hashes that a trial's lines can show.
    pub fn of_lines(r: &mut Random, n: usize) -> Script {
        Script { hashes: Hashes::of_one_byte(), ..Script::new(r, n) }
    }

    /// The next call. Where no slot is empty, most blocks that would come make way for a removal.
    pub fn next(&mut self, r: &mut Random, t: &Tables) -> Call {
        self.clock = self.clock.saturating_add(r.below(12) as u64);
        match r.weighted(&self.kinds) {
            Admit if !t.sequences.contains(&NONE_REF) && r.percent(60) => {
                Call::Remove { slot: removed(r, t) }
            }
            Admit => self.admit(r, t),
            Promote => Call::Promote { slot: next_active(r, t) },
            Remove => Call::Remove { slot: removed(r, t) },
            Timer => Call::Timer { now: self.now(r), span: given_span(r) },
            Deadline => Call::Deadline { span: given_span(r) },
            Restart => Call::Restart { now: self.now(r) },
        }
    }

    /// Mostly the clock.
    fn now(&self, r: &mut Random) -> u64 {
        if r.percent(90) { self.clock } else { time(r) }
    }

    fn admit(&mut self, r: &mut Random, t: &Tables) -> Call {
        let arrival = self.now(r);
        let kind = r.weighted(&self.arrivals);
        let sent = match kind {
            Extend => self.child(r, t, tip),
            Fork => self.child(r, t, occupied),
            Stranger | Odd => self.stranger(r, t),
            Late => self.late(r, t),
            Again => self.again(r, t),
            Near => self.near(r, t),
        };
        self.sent.push(sent);
        if let Odd = kind {
            return odd(r, sent, arrival);
        }
        let Sent { sequence, hash, previous } = sent;
        Call::Admit { sequence, hash: hash.to_vec(), previous: previous.to_vec(), arrival }
    }

    fn child(&mut self, r: &mut Random, t: &Tables, parent: Pick) -> Sent {
        let Some(parent) = parent(r, t).filter(|parent| parent.sequence < TOP) else {
            return self.root(r);
        };
        let sequence = parent.sequence + 1;
        Sent { sequence, hash: self.hashes.next(r), previous: parent.hash }
    }

    /// A block of a low sequence, its parent unknown.
    fn root(&mut self, r: &mut Random) -> Sent {
        let sequence = self.lowest.saturating_add(r.below(4) as u32).min(TOP);
        let previous = if r.percent(30) { [0; 32] } else { self.hashes.next(r) };
        Sent { sequence, hash: self.hashes.next(r), previous }
    }

    /// A block near others in sequence, or one that waits for the same parent as an earlier one.
    fn stranger(&mut self, r: &mut Random, t: &Tables) -> Sent {
        let root = self.root(r);
        let recent = &self.sent[self.sent.len().saturating_sub(6)..];
        if !recent.is_empty() && r.percent(40) {
            return Sent { hash: root.hash, ..r.pick(recent) };
        }
        match occupied(r, t) {
            Some(near) if r.percent(70) => {
                let sequence = near.sequence.saturating_add(r.below(4) as u32).min(TOP);
                Sent { sequence, ..root }
            }
            _ => root,
        }
    }

    /// The block that a stored head misses, or the one that its tail names, which may be another;
    /// its own parent often is there.
    fn late(&mut self, r: &mut Random, t: &Tables) -> Sent {
        let stored: Vec<usize> =
            (0..t.m()).filter(|&at| t.tips[at] != NONE_REF && t.connected[at] == 0).collect();
        if stored.is_empty() {
            return self.stranger(r, t);
        }
        let head = t.head(r.pick(&stored));
        let tail = t.block(head.tail as usize);
        let Some(sequence) = tail.sequence.checked_sub(1) else {
            return self.stranger(r, t);
        };
        let named = self.sent.iter().rev().find(|sent| names(sent, &tail));
        let hash = match named {
            Some(sent) if r.percent(70) => sent.previous,
            _ => head.missing,
        };
        let hash = if hash == [0; 32] && r.percent(90) { self.hashes.next(r) } else { hash };
        let below: Vec<usize> = (0..t.n())
            .filter(|&at| t.sequences[at] != NONE_REF && t.sequences[at] + 1 == sequence)
            .collect();
        let previous = match r.below(8) {
            0..=3 if !below.is_empty() => t.block(r.pick(&below)).hash,
            0 | 1 => [0; 32],
            _ => self.hashes.next(r),
        };
        Sent { sequence, hash, previous }
    }

    /// A block sent before, mostly one that is no longer there.
    fn again(&mut self, r: &mut Random, t: &Tables) -> Sent {
        if self.sent.is_empty() {
            return self.root(r);
        }
        let gone = |sent: &Sent| !(0..t.n()).any(|slot| names(sent, &t.block(slot)));
        let picks: Vec<Sent> = (0..4).map(|_| r.pick(&self.sent)).collect();
        picks.iter().copied().find(gone).unwrap_or(picks[0])
    }

    /// A child of a wrong sequence, the name of a block at another sequence, or a new hash for a
    /// block that is there.
    fn near(&mut self, r: &mut Random, t: &Tables) -> Sent {
        let Some(block) = occupied(r, t) else {
            return self.root(r);
        };
        let hash = self.hashes.next(r);
        let off = block.sequence.saturating_add(r.pick(&[0, 2, 3])).min(TOP);
        let lower = block.sequence.saturating_sub(1);
        match r.below(4) {
            0 => Sent { sequence: off, hash, previous: block.hash },
            1 => Sent { sequence: off, hash: block.hash, previous: hash },
            2 => Sent { sequence: lower, hash: block.hash, previous: hash },
            _ => Sent { sequence: block.sequence, hash, previous: block.hash },
        }
    }
}

/// The block with one or more of what refuses it for its own sake.
fn odd(r: &mut Random, sent: Sent, arrival: u64) -> Call {
    let reasons = r.pick(&[1, 1, 2, 2, 3, 3, 4, 5, 6, 7, 8, 9, 10, 15]);
    let sequence = if reasons & 1 == 0 { sent.sequence } else { NONE_REF };
    let mut hash = if reasons & 2 == 0 { sent.hash.to_vec() } else { vec![0; 32] };
    let mut previous = sent.previous.to_vec();
    if reasons & 4 != 0 {
        hash.resize(r.pick(&LENGTHS), 1);
    }
    if reasons & 8 != 0 {
        previous.resize(r.pick(&LENGTHS), 1);
    }
    Call::Admit { sequence, hash, previous, arrival }
}

/// The choice of a block.
type Pick = fn(&mut Random, &Tables) -> Option<Block>;

fn names(sent: &Sent, block: &Block) -> bool {
    (sent.sequence, sent.hash) == (block.sequence, block.hash)
}

fn tip(r: &mut Random, t: &Tables) -> Option<Block> {
    let tips: Vec<u32> = t.tips.iter().copied().filter(|&tip| tip != NONE_REF).collect();
    if tips.is_empty() { None } else { Some(t.block(r.pick(&tips) as usize)) }
}

fn occupied(r: &mut Random, t: &Tables) -> Option<Block> {
    occupied_slot(r, t).map(|slot| t.block(slot as usize))
}

fn occupied_slot(r: &mut Random, t: &Tables) -> Option<u32> {
    let from = r.below(t.n());
    let mut slots = (from..t.n()).chain(0..from);
    slots.find(|&slot| t.sequences[slot] != NONE_REF).map(|slot| slot as u32)
}

/// Mostly a child of the active head, where there is one, or the lowest block of a branch.
fn next_active(r: &mut Random, t: &Tables) -> u32 {
    let heads: Vec<usize> = (0..t.m()).filter(|&at| t.tips[at] != NONE_REF).collect();
    if r.percent(20) || heads.is_empty() {
        return any_slot(r, t.n());
    }
    if t.active == NONE_REF {
        return if r.percent(60) { t.tails[r.pick(&heads)] } else { any_slot(r, t.n()) };
    }
    let next: Vec<usize> = (0..t.n()).filter(|&slot| t.parents[slot] == t.active).collect();
    if next.is_empty() { any_slot(r, t.n()) } else { r.pick(&next) as u32 }
}

/// A slot to ask for between the calls of a list, mostly an occupied one.
pub fn asked_slot(r: &mut Random, t: &Tables) -> u32 {
    let slot = occupied_slot(r, t).filter(|_| r.percent(85));
    slot.unwrap_or_else(|| any_slot(r, t.n()))
}

/// Mostly an occupied slot, and of large tables a tip.
fn removed(r: &mut Random, t: &Tables) -> u32 {
    let tip = t.tips[r.below(t.m())];
    if tip != NONE_REF && r.percent(if t.n() >= 256 { 90 } else { 40 }) {
        return tip;
    }
    match occupied_slot(r, t) {
        Some(slot) if r.percent(80) => slot,
        _ => any_slot(r, t.n()),
    }
}
