//! Trees of blocks, grown by admissions from fresh tables in which nothing is evicted, so that each
//! block's slot is the number of those before it.

use crate::calls::Block;
use station::Hash;

/// A block of the tree.
#[derive(Clone, Copy)]
pub struct Node {
    pub slot: u32,
    pub sequence: u32,
    pub hash: Hash,
}

#[derive(Default)]
pub struct Tree {
    hashes: u64,
    pub admitted: Vec<Block>,
}

impl Tree {
    /// A hash that no block has yet (splitmix64).
    pub fn hash(&mut self) -> Hash {
        let mut hash = [0; 32];
        for word in hash.chunks_mut(8) {
            self.hashes = self.hashes.wrapping_add(0x9e37_79b9_7f4a_7c15);
            let mut z = self.hashes;
            z = (z ^ (z >> 30)).wrapping_mul(0xbf58_476d_1ce4_e5b9);
            z = (z ^ (z >> 27)).wrapping_mul(0x94d0_49bb_1331_11eb);
            word.copy_from_slice(&(z ^ (z >> 31)).to_be_bytes());
        }
        hash
    }

    /// A block that is not admitted yet.
    pub fn block(&mut self, sequence: u32, previous: Hash) -> Block {
        Block { sequence, hash: self.hash(), previous, arrival: u64::from(sequence) }
    }

    pub fn child_of(&mut self, parent: &Node) -> Block {
        self.block(parent.sequence + 1, parent.hash)
    }

    pub fn admit(&mut self, block: Block) -> Node {
        let slot = self.admitted.len() as u32;
        let node = Node { slot, sequence: block.sequence, hash: block.hash };
        self.admitted.push(block);
        node
    }

    /// Admits a block whose parent is nowhere.
    pub fn root(&mut self, sequence: u32) -> Node {
        let previous = self.hash();
        let block = self.block(sequence, previous);
        self.admit(block)
    }

    pub fn child(&mut self, parent: &Node) -> Node {
        let block = self.child_of(parent);
        self.admit(block)
    }

    /// Admits children one upon the other, the first upon the parent.
    pub fn chain(&mut self, parent: &Node, len: usize) -> Vec<Node> {
        let mut last = *parent;
        (0..len)
            .map(|_| {
                last = self.child(&last);
                last
            })
            .collect()
    }
}
