//! Random tables with a caller's map: no bit set, all bits, a true map with one bit wrong, at every place
//! in turn and past the last slot too, and any words; and full tables of whose true map the last word is
//! full, or has its first free bit past the last slot. They are of the sizes at which a word ends.

use crate::args::Args;
use crate::buffers::BUFFERS;
use crate::generate::{self, TOP, any_hash, of_size};
use crate::misfit::Misfit;
use crate::random::Random;
use crate::tables::{NONE_REF, Tables};

/// The numbers of block slots, which come in turn.
pub const BLOCK_SLOTS: [usize; 6] = [1, 63, 64, 65, 127, 128];

/// One table in so many has the most slots.
pub const LARGE: u64 = 33;
pub const LARGEST: usize = 1024;

/// What is made of a true map, or of the blocks below it.
type Change = fn(&mut Random, &mut Tables);

const CHANGES: [Change; 4] = [
    |_, t| t.map.fill(0),
    |_, t| t.map.fill(u64::MAX),
    |r, t| t.map.fill_with(|| r.word()),
    |_, t| fill(t),
];

/// The table of a round. Every other time that a number of slots comes, and of the largest seven times in
/// eight, one bit of a true map is wrong, each time the next.
pub fn tables(r: &mut Random, round: u64) -> Tables {
    let (n, turn, often) = match round as usize {
        large if round.is_multiple_of(LARGE) => (LARGEST, large / LARGE as usize, 8),
        small => (BLOCK_SLOTS[small % BLOCK_SLOTS.len()], small / BLOCK_SLOTS.len(), 2),
    };
    let mut t = of_size(r, n);
    if turn.is_multiple_of(often) {
        CHANGES[turn / often % CHANGES.len()](r, &mut t);
    } else {
        let bits = 64 * t.map.len();
        flip(&mut t.map, (turn - turn / often) % bits);
    }
    t
}

fn flip(map: &mut [u64], bit: usize) {
    map[bit / 64] ^= 1 << (bit % 64);
}

/// Puts a block in every empty slot; the map is true of them.
fn fill(t: &mut Tables) {
    t.sequences.iter_mut().filter(|sequence| **sequence == NONE_REF).for_each(|empty| *empty = 7);
    t.mend_map();
}

/// Arguments for these tables. Most blocks are such that nothing but the map and the slots can refuse them;
/// of the buffers that do not fit, most often the map is a word too long or too short.
pub fn args(r: &mut Random, t: &Tables) -> Args {
    let mut args = generate::args(r, t);
    if r.percent(75) {
        let sequence = args.sequence.min(TOP);
        args = Args { sequence, hash: any_hash(r), hash_length: 32, previous_length: 32, ..args };
    }
    if args.misfit.is_some() && r.percent(75) {
        let buffer = BUFFERS.iter().find(|buffer| buffer.name == "map").expect("a buffer");
        args.misfit = Some(Misfit::Buffer(buffer, r.pick(&[-1, 1])));
    }
    args
}
