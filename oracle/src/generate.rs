//! Random tables and arguments: tables that look like reached ones, such tables with some damage,
//! and tables of arbitrary fields; arguments that meet them and arguments that do not.

use crate::args::{Args, Rank};
use crate::buffers::{BUFFERS, Buffer, Cells};
use crate::misfit::Misfit;
use crate::random::Random;
use crate::tables::{Block, BlockStatus, Hash, Head, NONE_REF, Tables};

const BLOCK_SLOTS: [(usize, usize); 12] = [
    (1, 60),
    (2, 80),
    (3, 120),
    (4, 150),
    (5, 150),
    (6, 150),
    (8, 130),
    (12, 100),
    (33, 40),
    (64, 17),
    (256, 2),
    (1024, 1),
];
const HEAD_SLOTS: [(usize, usize); 7] =
    [(2, 300), (3, 250), (4, 200), (5, 130), (8, 100), (16, 18), (64, 2)];

/// The highest sequence that a block can have.
pub(crate) const TOP: u32 = NONE_REF - 1;

const ON_ACTIVE_CHAIN: u8 = 0b1;
const STATUS_ACTIVE: u8 = 0b100;

pub fn tables(r: &mut Random) -> Tables {
    let n = r.weighted(&BLOCK_SLOTS);
    let m = r.weighted(&HEAD_SLOTS);
    match r.below(10) {
        0..=3 => reached(r, n, m),
        4..=7 => {
            let mut t = reached(r, n, m);
            if r.percent(60) {
                crowd(r, &mut t);
            }
            for _ in 0..1 + r.below(n.min(6)) {
                damage(r, &mut t);
            }
            t
        }
        _ => arbitrary(r, n, m),
    }
}

/// Arguments for these tables. The sequence and the hash are often those of one block, or, for a
/// parent to be found, the sequence one higher.
pub fn args(r: &mut Random, t: &Tables) -> Args {
    let block = t.block(r.below(t.n()));
    let hash = hash_near(r, t, block.hash);
    let previous = if r.percent(50) { hash_near(r, t, block.hash) } else { hash_near(r, t, hash) };
    let sequence = match r.below(10) {
        0..=3 => block.sequence,
        4..=7 => block.sequence.wrapping_add(1),
        _ => sequence(r, t),
    };
    let slot = met_slot(r, t);
    let first = rank(r, hash);
    let second = if r.percent(40) { first } else { rank(r, previous) };
    Args {
        slot,
        parent: any_slot(r, t.n()),
        found: parent_of(r, t, slot),
        head: head_slot(r, t.m()),
        sequence,
        hash,
        previous,
        change: if r.percent(50) { r.pick(&[-128, -127, -1, 0, 1, 127]) } else { r.word() as i8 },
        count: byte(r),
        flags: byte(r),
        status: r.pick(&[BlockStatus::Stored, BlockStatus::Connected, BlockStatus::Active]),
        value: r.percent(50),
        now: time(r),
        retry: span(r),
        requested: time(r),
        deleted: freed(r, t),
        first,
        second: (r.pick(&[second.0, first.0]), r.pick(&[second.1, first.1]), previous),
        hash_length: hash_length(r),
        previous_length: hash_length(r),
        span: given_span(r),
        more: r.pick(&MORE),
        misfit: if r.percent(8) { Some(misfit(r)) } else { None },
    }
}

/// How many records more than head slots a list has, or fewer.
pub const MORE: [i8; 6] = [-128, -1, 0, 1, 2, 100];

/// Lengths that a hash cannot have.
pub(crate) const LENGTHS: [usize; 6] = [0, 1, 16, 31, 33, 64];

fn hash_length(r: &mut Random) -> usize {
    if r.percent(94) { 32 } else { r.pick(&LENGTHS) }
}

fn misfit(r: &mut Random) -> Misfit {
    match r.below(6) {
        0 => Misfit::Blocks(r.pick(&[0, 1025, 1026, 2048])),
        1 => Misfit::Heads(r.pick(&[0, 1, 65, 66, 128])),
        _ => {
            let buffer = &BUFFERS[r.below(BUFFERS.len())];
            Misfit::Buffer(buffer, r.pick(&[-64, -32, -31, -2, -1, 1, 2, 31, 32, 64]))
        }
    }
}

/// Often a block that has just been put in, as admit does before its heads follow, one that a head
/// misses, or one whose parent is the active head; else any slot.
fn met_slot(r: &mut Random, t: &Tables) -> u32 {
    let met = match r.below(8) {
        0..=3 => (0..t.n()).find(|&at| t.sequences[at] != NONE_REF && t.counts[at] == 0),
        4 => {
            let missing = t.head(r.below(t.m())).missing;
            (0..t.n()).find(|&at| t.block(at).hash == missing)
        }
        5 => (0..t.n()).find(|&at| t.parents[at] == t.active),
        _ => None,
    };
    met.map_or_else(|| any_slot(r, t.n()), |at| at as u32)
}

/// What admit could take for the parent of the block in this slot.
fn parent_of(r: &mut Random, t: &Tables, slot: u32) -> Option<u32> {
    let own = t.parents.get(slot as usize).copied().unwrap_or(NONE_REF);
    match r.below(8) {
        0 => None,
        1 => Some(t.tips[r.below(t.m())]).filter(|&tip| tip != NONE_REF),
        2 => Some(any_slot(r, t.n())).filter(|&parent| parent != NONE_REF),
        _ => Some(own).filter(|&parent| parent != NONE_REF),
    }
}

/// A list of slots, mostly tips of heads.
fn freed(r: &mut Random, t: &Tables) -> Vec<u32> {
    (0..r.below(t.m().min(4) + 2))
        .map(|_| if r.percent(70) { t.tips[r.below(t.m())] } else { any_slot(r, t.n()) })
        .collect()
}

fn head_slot(r: &mut Random, m: usize) -> u32 {
    let inside = r.below(m) as u32;
    match r.below(16) {
        0 => m as u32,
        1 => NONE_REF,
        2 => inside.wrapping_add(1 << r.pick(&[8, 16, 24, 27, 29, 30, 31])),
        _ => inside,
    }
}

pub(crate) fn given_span(r: &mut Random) -> Option<u64> {
    if r.percent(30) { None } else { Some(span(r)) }
}

fn span(r: &mut Random) -> u64 {
    match r.below(8) {
        0 | 1 => 0,
        2..=4 => r.below(20) as u64,
        5 => 60,
        6 => u64::MAX - r.below(20) as u64,
        _ => r.word(),
    }
}

fn rank(r: &mut Random, hash: Hash) -> Rank {
    let len = r.word() as u16;
    (time(r), r.pick(&[0, 1, 2, 255, 256, u16::MAX, len]), hash)
}

/// A block slot, in range two times in three, and otherwise one that a wrong width would take for
/// one in range, or any.
pub(crate) fn any_slot(r: &mut Random, n: usize) -> u32 {
    let inside = r.below(n) as u32;
    match r.below(16) {
        0 => n as u32,
        1 => n as u32 + 1,
        2 => NONE_REF,
        3 => inside.wrapping_add(1 << r.pick(&[8, 16, 24, 27, 29, 30, 31])),
        4 => r.word() as u32,
        _ => inside,
    }
}

fn sequence(r: &mut Random, t: &Tables) -> u32 {
    match r.below(8) {
        0 => 0,
        1 => TOP,
        2 => NONE_REF,
        3 => r.word() as u32,
        4 => r.below(4) as u32,
        5 => t.sequences[r.below(t.n())].wrapping_sub(1),
        6 => t.sequences[r.below(t.n())].wrapping_add(1),
        _ => t.sequences[r.below(t.n())],
    }
}

fn byte(r: &mut Random) -> u8 {
    if r.percent(50) { r.pick(&[0, 1, 2, 127, 128, 254, 255]) } else { r.word() as u8 }
}

pub(crate) fn time(r: &mut Random) -> u64 {
    match r.below(8) {
        0..=2 => 0,
        3..=5 => r.below(20) as u64,
        6 => u64::MAX - r.below(20) as u64,
        _ => r.word(),
    }
}

/// Often the hash given; else one that differs in a byte, mostly the first or the last, another of
/// the table's, or any.
fn hash_near(r: &mut Random, t: &Tables, hash: Hash) -> Hash {
    match r.below(10) {
        0 | 1 => {
            let mut other = hash;
            let any = r.below(32);
            let at = r.pick(&[0, 0, 0, 31, 31, 31, any]);
            other[at] = other[at].wrapping_add(r.pick(&[1, 255, 128]));
            if r.percent(25) {
                other[31 - at] = other[31 - at].wrapping_sub(1);
            }
            other
        }
        2 => t.block(r.below(t.n())).hash,
        3 => t.head(r.below(t.m())).missing,
        4 => edge_hash(r),
        _ => hash,
    }
}

fn edge_hash(r: &mut Random) -> Hash {
    let any = any_hash(r);
    r.pick(&[[0; 32], [255; 32], any])
}

fn any_hash(r: &mut Random) -> Hash {
    let mut hash = [0; 32];
    hash.chunks_exact_mut(8).for_each(|part| part.copy_from_slice(&r.word().to_le_bytes()));
    hash
}

/// Distinct hashes of one table, which differ in the first bytes, in the last, or everywhere.
pub(crate) struct Hashes {
    base: Hash,
    made: u16,
    first: bool,
    last: bool,
    one_byte: bool,
}

impl Hashes {
    pub(crate) fn new(r: &mut Random) -> Hashes {
        let base = edge_hash(r);
        let (first, last) = r.pick(&[(true, false), (false, true), (true, true), (false, false)]);
        Hashes { base, made: 0, first, last, one_byte: false }
    }

    /// One byte 32 times, as in the lines of a trial; after 255 they come again.
    pub(crate) fn of_one_byte() -> Hashes {
        Hashes { base: [0; 32], made: 0, first: false, last: false, one_byte: true }
    }

    pub(crate) fn next(&mut self, r: &mut Random) -> Hash {
        self.made += 1;
        if self.one_byte {
            return [(self.made % 255 + 1) as u8; 32];
        }
        let [high, low] = self.made.to_be_bytes();
        let mut hash = if self.first || self.last { self.base } else { any_hash(r) };
        if self.first {
            hash[..2].copy_from_slice(&[low, high]);
        }
        if self.last {
            hash[30..].copy_from_slice(&[high, 255 - low]);
        }
        hash
    }
}

/// Tables as calls could have left them: consistent trees, an active chain or none, right counts,
/// and a head for each childless block that there is room for; often there is no more room. Often
/// a block has been put in whose heads have yet to follow.
fn reached(r: &mut Random, n: usize, m: usize) -> Tables {
    let mut t = Tables::empty(n, m);
    let mut hashes = Hashes::new(r);
    let mut order: Vec<usize> = (0..n).collect();
    if r.percent(70) {
        r.shuffle(&mut order);
    }
    let blocks = match r.below(20) {
        0 => 0,
        1..=5 => n,
        6..=12 => n - 1,
        _ => r.below(n + 1),
    };
    order.truncate(blocks);
    plant(r, &mut t, &order, &mut hashes);
    if blocks > 0 && r.percent(60) {
        t.active = r.pick(&order) as u32;
        each_ancestor(&t.clone(), t.active, |slot| {
            t.flags[slot] |= ON_ACTIVE_CHAIN | STATUS_ACTIVE;
            t.flags[slot] &= !0b10;
        });
    }
    let children = children(&t);
    for &slot in &order {
        t.counts[slot] = children[slot].clamp(1, 255) as u8;
    }
    order.retain(|&slot| children[slot] == 0);
    if order.len() >= 2 && r.percent(70) {
        let most = HEAD_SLOTS.iter().rev().find(|(slots, _)| *slots <= order.len());
        t = t.with_empty_heads(most.expect("two are enough").0);
    }
    raise_heads(r, &mut t, &order, &mut hashes);
    if r.percent(60) {
        arrive(r, &mut t, &mut hashes);
    }
    t
}

/// Puts a block in an empty slot, as admit does: the one that a head misses, a child of some block,
/// or one of unknown descent.
fn arrive(r: &mut Random, t: &mut Tables, hashes: &mut Hashes) {
    let Some(place) = t.sequences.iter().position(|&sequence| sequence == NONE_REF) else {
        return;
    };
    let stored: Vec<usize> =
        (0..t.m()).filter(|&at| t.tips[at] != NONE_REF && t.connected[at] == 0).collect();
    let awaited = if stored.is_empty() { None } else { Some(t.head(r.pick(&stored))) };
    let awaited = awaited.filter(|head| t.sequences[head.tail as usize] > 0);
    let (hash, sequence) = match awaited {
        Some(head) if r.percent(75) => (head.missing, t.sequences[head.tail as usize] - 1),
        _ => {
            let near = t.sequences[r.below(t.n())];
            (hashes.next(r), if near < TOP { near + 1 } else { r.below(10) as u32 })
        }
    };
    let above: Vec<usize> = (0..t.n())
        .filter(|&at| {
            t.sequences[at] != NONE_REF && t.sequences[at].checked_add(1) == Some(sequence)
        })
        .collect();
    let parent = if above.is_empty() || r.percent(30) { NONE_REF } else { r.pick(&above) as u32 };
    t.set_block(place, Block { hash, parent, sequence, count: 0, flags: 0 });
    let others = r.pick(&[0, 20, 80]);
    for at in stored {
        if r.percent(others) {
            t.set_head(at, Head { missing: hash, ..t.head(at) });
        }
    }
}

/// Puts a head in each empty head slot: one that shares its tip with another, one on any occupied
/// block, or one that points nowhere.
fn crowd(r: &mut Random, t: &mut Tables) {
    for place in 0..t.m() {
        if t.tips[place] != NONE_REF {
            continue;
        }
        let block = r.below(t.n());
        let head = match r.below(8) {
            0..=2 => t.head(r.below(t.m())),
            3..=5 => Head {
                tip: block as u32,
                tail: if r.percent(50) { block } else { r.below(t.n()) } as u32,
                missing: t.block(r.below(t.n())).hash,
                requested: time(r),
                arrival: time(r),
                connected: r.pick(&[0, 0, 1]),
            },
            _ => Head { tip: any_slot(r, t.n()), tail: any_slot(r, t.n()), ..Head::EMPTY },
        };
        t.set_head(place, head);
    }
}

/// Puts a block in each of the slots, in this order, each a root or the child of an earlier one.
fn plant(r: &mut Random, t: &mut Tables, order: &[usize], hashes: &mut Hashes) {
    let roots = r.pick(&[0, 5, 25, 60]);
    let forks = r.pick(&[0, 10, 50, 100, 100]);
    let wide = r.percent(30);
    let spread = r.pick(&[1, 1, 3]);
    let lowest = match r.below(4) {
        0 => 0,
        1 => TOP - r.below(order.len() + 1) as u32,
        2 => r.word() as u32 % TOP,
        _ => r.below(10) as u32,
    };
    for (placed, &slot) in order.iter().enumerate() {
        let parent = match placed {
            0 => None,
            _ if r.percent(roots) => None,
            _ if wide => Some(order[r.below(placed.min(3))]),
            _ if r.percent(forks) => Some(order[r.below(placed)]),
            _ => Some(order[placed - 1]),
        };
        let parent = parent.filter(|&parent| t.sequences[parent] < TOP);
        let block = Block {
            hash: hashes.next(r),
            parent: parent.map_or(NONE_REF, |parent| parent as u32),
            sequence: match parent {
                Some(parent) => t.sequences[parent] + 1,
                None => lowest.saturating_add(r.below(spread) as u32).min(TOP),
            },
            count: 0,
            flags: r.pick(&[0, 0, 0, 0b10, 0b11_1000, 0b1100_0000]),
        };
        t.set_block(slot, block);
    }
}

/// A head in a random place for each childless block, while there is room.
fn raise_heads(r: &mut Random, t: &mut Tables, childless: &[usize], hashes: &mut Hashes) {
    let mut places: Vec<usize> = (0..t.m()).collect();
    if r.percent(50) {
        r.shuffle(&mut places);
    }
    let previous: Vec<Hash> = childless.iter().map(|_| hashes.next(r)).collect();
    let mut tails: Vec<u32> = Vec::new();
    for (&place, &tip) in places.iter().zip(childless) {
        let mut head = Head { tip: tip as u32, arrival: time(r), ..Head::EMPTY };
        each_ancestor(t, head.tip, |slot| {
            if head.connected == 0 {
                head.tail = slot as u32;
                head.connected = t.flags[slot] & ON_ACTIVE_CHAIN;
            }
        });
        if head.connected == 0 {
            let known = tails.iter().position(|&tail| tail == head.tail).unwrap_or_else(|| {
                tails.push(head.tail);
                tails.len() - 1
            });
            head.missing = previous[known];
            head.requested = time(r);
        }
        t.set_head(place, head);
    }
}

/// The occupied blocks from this one up, in a tree without cycles.
fn each_ancestor(t: &Tables, from: u32, mut see: impl FnMut(usize)) {
    let mut at = from;
    while at != NONE_REF {
        see(at as usize);
        at = t.parents[at as usize];
    }
}

fn children(t: &Tables) -> Vec<usize> {
    let mut children = vec![0; t.n()];
    for slot in 0..t.n() {
        if t.sequences[slot] != NONE_REF && t.parents[slot] != NONE_REF {
            children[t.parents[slot] as usize] += 1;
        }
    }
    children
}

/// Puts one cell of a buffer, one record or the active head out of order.
fn damage(r: &mut Random, t: &mut Tables) {
    let at = r.below(t.n());
    let head = r.below(t.m());
    match r.below(6 + BUFFERS.len()) {
        0 => t.parents[at] = at as u32,
        1 => t.sequences[at] = NONE_REF,
        2 => t.set_block(at, t.block(r.below(t.n()))),
        3 => t.set_block(at, any_block(r, t)),
        4 => t.set_head(head, t.head(r.below(t.m()))),
        5 => t.active = any_slot(r, t.n()),
        others => damage_cell(r, t, &BUFFERS[others - 6]),
    }
}

fn damage_cell(r: &mut Random, t: &mut Tables, buffer: &Buffer) {
    let before = t.clone();
    match (buffer.cells)(t) {
        Cells::Hashes(bytes) => {
            let near = before.block(r.below(before.n())).hash;
            let at = 32 * r.below(bytes.len() / 32);
            bytes[at..][..32].copy_from_slice(&hash_near(r, &before, near));
        }
        Cells::BlockSlots(slots) => *one_of(r, slots) = any_slot(r, before.n()),
        Cells::Sequences(sequences) => *one_of(r, sequences) = sequence(r, &before),
        Cells::Bytes(bytes) => *one_of(r, bytes) = byte(r),
        Cells::Times(times) => *one_of(r, times) = time(r),
    }
}

fn one_of<'a, T>(r: &mut Random, cells: &'a mut [T]) -> &'a mut T {
    let at = r.below(cells.len());
    &mut cells[at]
}

/// Tables of arbitrary fields.
pub(crate) fn arbitrary(r: &mut Random, n: usize, m: usize) -> Tables {
    let mut t = Tables::empty(n, m);
    let base = any_hash(r);
    t.hashes.chunks_exact_mut(32).for_each(|hash| hash.copy_from_slice(&base));
    for at in 0..n {
        let block = any_block(r, &t);
        t.set_block(at, block);
    }
    for at in 0..m {
        let near = t.block(r.below(n)).hash;
        let head = Head {
            tip: any_slot(r, n),
            tail: any_slot(r, n),
            missing: hash_near(r, &t, near),
            requested: time(r),
            arrival: time(r),
            connected: byte(r),
        };
        t.set_head(at, head);
    }
    t.active = any_slot(r, n);
    t
}

fn any_block(r: &mut Random, t: &Tables) -> Block {
    let near = t.block(r.below(t.n())).hash;
    Block {
        hash: hash_near(r, t, near),
        parent: any_slot(r, t.n()),
        sequence: sequence(r, t),
        count: byte(r),
        flags: byte(r),
    }
}
