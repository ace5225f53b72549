//! The lent buffers, in the port's order, and the two records whose fields they hold.

pub use crate::staged_validation::BlockStatus;

pub const NONE_REF: u32 = u32::MAX;

/// What each place of a caller's list holds before a call that fills it.
pub const SPARE: u32 = 888_888_888;

pub type Hash = [u8; 32];

/// A block slot.
#[derive(Debug, Clone, Copy, PartialEq, Eq)]
pub struct Block {
    pub hash: Hash,
    pub parent: u32,
    pub sequence: u32,
    pub count: u8,
    pub flags: u8,
}

impl Block {
    pub const EMPTY: Block =
        Block { hash: [0; 32], parent: NONE_REF, sequence: NONE_REF, count: 0, flags: 0 };
}

/// A head slot. Bit 0 of `connected` is the flag.
#[derive(Debug, Clone, Copy, PartialEq, Eq)]
pub struct Head {
    pub tip: u32,
    pub tail: u32,
    pub missing: Hash,
    pub requested: u64,
    pub arrival: u64,
    pub connected: u8,
}

impl Head {
    pub const EMPTY: Head = Head {
        tip: NONE_REF,
        tail: NONE_REF,
        missing: [0; 32],
        requested: 0,
        arrival: 0,
        connected: 0,
    };
}

/// Where the parent walk of a tip ends.
#[derive(Debug, Clone, Copy, PartialEq, Eq)]
pub enum Located {
    Connection(u32),
    Tail(u32),
}

/// A head slot to ask for its missing parent, with that hash and the claimed sequence.
#[derive(Debug, Clone, Copy, PartialEq, Eq)]
pub struct Recovery {
    pub head: u32,
    pub missing: Hash,
    pub claimed: u32,
}

/// Why a block is not inserted.
#[derive(Debug, Clone, Copy, PartialEq, Eq)]
pub enum NotInserted {
    ReservedSequence,
    Full,
}

/// The five buffers of n blocks, the six of m heads, and the active head's slot.
#[derive(Debug, Clone, PartialEq, Eq, Hash)]
pub struct Tables {
    pub hashes: Vec<u8>,
    pub parents: Vec<u32>,
    pub sequences: Vec<u32>,
    pub counts: Vec<u8>,
    pub flags: Vec<u8>,
    pub tips: Vec<u32>,
    pub tails: Vec<u32>,
    pub missing: Vec<u8>,
    pub requested: Vec<u64>,
    pub arrivals: Vec<u64>,
    pub connected: Vec<u8>,
    pub active: u32,
}

impl Tables {
    pub fn empty(n: usize, m: usize) -> Tables {
        Tables {
            hashes: vec![0; 32 * n],
            parents: vec![NONE_REF; n],
            sequences: vec![NONE_REF; n],
            counts: vec![0; n],
            flags: vec![0; n],
            tips: vec![NONE_REF; m],
            tails: vec![NONE_REF; m],
            missing: vec![0; 32 * m],
            requested: vec![0; m],
            arrivals: vec![0; m],
            connected: vec![0; m],
            active: NONE_REF,
        }
    }

    /// Tables in which no cell is as in an empty record.
    pub fn used(n: usize, m: usize) -> Tables {
        Tables {
            hashes: vec![1; 32 * n],
            parents: vec![1; n],
            sequences: vec![1; n],
            counts: vec![1; n],
            flags: vec![1; n],
            tips: vec![1; m],
            tails: vec![1; m],
            missing: vec![1; 32 * m],
            requested: vec![1; m],
            arrivals: vec![1; m],
            connected: vec![1; m],
            active: 1,
        }
    }

    /// The same blocks with so many empty head slots.
    pub fn with_empty_heads(&self, m: usize) -> Tables {
        let mut t = Tables { active: self.active, ..Tables::empty(self.n(), m) };
        (0..self.n()).for_each(|slot| t.set_block(slot, self.block(slot)));
        t
    }

    pub fn n(&self) -> usize {
        self.parents.len()
    }

    pub fn m(&self) -> usize {
        self.tips.len()
    }

    pub fn block(&self, slot: usize) -> Block {
        Block {
            hash: hash_at(&self.hashes, slot),
            parent: self.parents[slot],
            sequence: self.sequences[slot],
            count: self.counts[slot],
            flags: self.flags[slot],
        }
    }

    pub fn set_block(&mut self, slot: usize, block: Block) {
        self.hashes[32 * slot..][..32].copy_from_slice(&block.hash);
        self.parents[slot] = block.parent;
        self.sequences[slot] = block.sequence;
        self.counts[slot] = block.count;
        self.flags[slot] = block.flags;
    }

    pub fn head(&self, slot: usize) -> Head {
        Head {
            tip: self.tips[slot],
            tail: self.tails[slot],
            missing: hash_at(&self.missing, slot),
            requested: self.requested[slot],
            arrival: self.arrivals[slot],
            connected: self.connected[slot],
        }
    }

    pub fn set_head(&mut self, slot: usize, head: Head) {
        self.tips[slot] = head.tip;
        self.tails[slot] = head.tail;
        self.missing[32 * slot..][..32].copy_from_slice(&head.missing);
        self.requested[slot] = head.requested;
        self.arrivals[slot] = head.arrival;
        self.connected[slot] = head.connected;
    }
}

fn hash_at(buffer: &[u8], slot: usize) -> Hash {
    buffer[32 * slot..][..32].try_into().expect("32 bytes")
}
