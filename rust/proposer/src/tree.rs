//! The nodes of a tree, and their bytes.

use crate::bits::BYTE_BITS;
use crate::live::Live;

/// The most nodes of a tree.
pub const NODE_LIMIT: usize = 4095;

/// A leaf's place for no constructor.
pub const NONE: u16 = 65_535;

const LEAF: u8 = 0;
const BYTE_TEST: u8 = 1;
const CONTEXT_TEST: u8 = 2;

/// A test's zero side is the next node, and its place is its one side.
struct Node {
    kind: u8,
    bit: u8,
    place: u16,
}

impl Node {
    fn leaf(place: u16) -> Node {
        Node {
            kind: LEAF,
            bit: 0,
            place,
        }
    }

    /// Its one side is not known yet.
    fn test(bit: u32) -> Node {
        let (kind, bit) = match bit.checked_sub(BYTE_BITS) {
            None => (BYTE_TEST, bit),
            Some(bit) => (CONTEXT_TEST, bit),
        };
        Node {
            kind,
            bit: bit as u8,
            place: 0,
        }
    }
}

#[derive(Default)]
pub struct Tree {
    nodes: Vec<Node>,
}

impl Tree {
    /// A tree for these patterns, if it is not too large.
    pub fn of(live: &Live) -> Option<Tree> {
        let mut tree = Tree::default();
        tree.subtree(live)?;
        Some(tree)
    }

    fn subtree(&mut self, live: &Live) -> Option<()> {
        let node = self.nodes.len();
        if node == NODE_LIMIT {
            return None;
        }
        if let Some(place) = live.leaf() {
            self.nodes.push(Node::leaf(place));
            return Some(());
        }
        let bit = live.tested_bit()?;
        let [zero, one] = live.sides(bit);
        self.nodes.push(Node::test(bit));
        self.subtree(&zero)?;
        self.nodes[node].place = self.nodes.len() as u16;
        self.subtree(&one)
    }

    pub fn bytes(&self) -> Vec<u8> {
        let mut bytes = (self.nodes.len() as u16).to_le_bytes().to_vec();
        for node in &self.nodes {
            bytes.extend([node.kind, node.bit]);
            bytes.extend(node.place.to_le_bytes());
        }
        bytes
    }
}

/// How many nodes a well-formed tree has.
pub fn nodes(tree: &[u8]) -> usize {
    tree.len() / 4
}

/// The most tests on a path of a well-formed tree.
pub fn depth(tree: &[u8]) -> usize {
    // The tests above each subtree that is still to come, the next one last.
    let mut waiting = vec![0];
    let mut deepest = 0;
    for node in tree[2..].chunks(4) {
        let above = waiting.pop().expect("every node is used");
        match node[0] {
            LEAF => deepest = deepest.max(above),
            _ => waiting.extend([above + 1; 2]),
        }
    }
    deepest
}
