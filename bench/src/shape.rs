//! The trees that the cases start from: a chain, active but for its last sixteenth, and branches,
//! every other one upon the chain's upper half and the rest with no parent.

use crate::calls::List;
use crate::tree::{Node, Tree};

/// The first sequence of the chain.
const START: u32 = 1000;

pub struct Shape {
    pub tree: Tree,
    pub trunk: Vec<Node>,
    /// How many of the trunk's blocks are active.
    pub active: usize,
    pub branches: Vec<Vec<Node>>,
}

impl Shape {
    /// So many blocks, three in four of them in the trunk, with at most so many heads. The branches
    /// end below the trunk's tip.
    pub fn long(blocks: usize, heads: usize) -> Shape {
        Shape::new(blocks - blocks / 4, blocks / 4, heads)
    }

    /// So many blocks, one in four of them in the trunk, with at most so many heads.
    pub fn bushy(blocks: usize, heads: usize) -> Shape {
        Shape::new(blocks / 4, blocks - blocks / 4, heads)
    }

    /// So many blocks and heads. Each branch is one block with no parent, at any height.
    pub fn scattered(blocks: usize, heads: usize) -> Shape {
        let mut tree = Tree::default();
        let trunk = trunk(&mut tree, blocks + 1 - heads);
        let mut branches = Vec::new();
        for _ in 1..heads {
            let [high, low, ..] = tree.hash();
            let height = usize::from(u16::from_be_bytes([high, low])) % blocks;
            branches.push(vec![tree.root(START + height as u32)]);
        }
        Shape::of(tree, trunk, branches)
    }

    fn new(trunk_len: usize, rest: usize, heads: usize) -> Shape {
        let mut tree = Tree::default();
        let trunk = trunk(&mut tree, trunk_len);
        let count = rest.min(heads - 1);
        let upmost = trunk_len.saturating_sub(2 + rest.div_ceil(count)).max(trunk_len / 2);
        let mut branches: Vec<Vec<Node>> = Vec::new();
        for k in 0..count {
            let at = trunk[upmost - k % (trunk_len / 8)];
            let node = if k % 2 == 0 { tree.child(&at) } else { tree.root(at.sequence + 1) };
            branches.push(vec![node]);
        }
        for k in count..rest {
            let branch = &mut branches[k % count];
            let tip = branch[branch.len() - 1];
            branch.push(tree.child(&tip));
        }
        Shape::of(tree, trunk, branches)
    }

    fn of(tree: Tree, trunk: Vec<Node>, branches: Vec<Vec<Node>>) -> Shape {
        let active = trunk.len() - trunk.len() / 16;
        Shape { tree, trunk, active, branches }
    }

    pub fn heads(&self) -> usize {
        self.branches.len() + 1
    }

    /// The tips, the trunk's first.
    pub fn tips(&self) -> Vec<Node> {
        let all = [&self.trunk].into_iter().chain(&self.branches);
        all.map(|nodes| nodes[nodes.len() - 1]).collect()
    }

    /// The branches' blocks from their tips down, one of each branch in turn.
    pub fn leaves(&self) -> impl Iterator<Item = Node> {
        let longest = self.branches[0].len();
        (1..=longest).flat_map(|below| {
            self.branches
                .iter()
                .filter_map(move |nodes| Some(nodes[nodes.len().checked_sub(below)?]))
        })
    }

    /// The calls that make these tables.
    pub fn setup(&self) -> Vec<List> {
        let promoted = self.trunk[..self.active].iter().map(|node| node.slot).collect();
        vec![List::Admit(self.tree.admitted.clone()), List::Promote(promoted)]
    }
}

fn trunk(tree: &mut Tree, len: usize) -> Vec<Node> {
    let first = tree.root(START);
    let mut trunk = vec![first];
    trunk.extend(tree.chain(&first, len - 1));
    trunk
}
