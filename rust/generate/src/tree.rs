//! Decision trees of a table, and their bytes.

use std::ops::Range;

use reference::{Description, Pattern};

use crate::Rng;

/// A leaf's place for no constructor.
pub const NONE: u16 = 65_535;
/// The most nodes of a tree.
pub const NODE_LIMIT: usize = 4095;

/// A node, member for member as the bytes have it.
#[derive(Clone, Copy, Debug, PartialEq, Eq)]
pub struct Node {
    pub kind: u8,
    pub bit: u8,
    pub place: u16,
}

impl Node {
    pub const LEAF: u8 = 0;
    pub const BYTE_TEST: u8 = 1;
    pub const CONTEXT_TEST: u8 = 2;

    pub fn leaf(place: u16) -> Node {
        Node {
            kind: Node::LEAF,
            bit: 0,
            place,
        }
    }

    pub fn test((kind, bit): (u8, u8), one_side: usize) -> Node {
        Node {
            kind,
            bit,
            place: one_side as u16,
        }
    }

    pub fn is_leaf(&self) -> bool {
        self.kind == Node::LEAF
    }
}

/// The nodes behind their count.
pub fn tree_bytes(nodes: &[Node]) -> Vec<u8> {
    let mut tree = (nodes.len() as u16).to_le_bytes().to_vec();
    for node in nodes {
        tree.extend([node.kind, node.bit]);
        tree.extend(node.place.to_le_bytes());
    }
    tree
}

/// A well-formed tree whose leaves are all right, if the table is clear and
/// the tree is not too large; it tests bits in a random order.
pub fn tree(rng: &mut Rng, d: &Description, table: u32) -> Option<Vec<u8>> {
    tree_nodes(rng, d, table).map(|nodes| tree_bytes(&nodes))
}

/// The same as nodes.
pub fn tree_nodes(rng: &mut Rng, d: &Description, table: u32) -> Option<Vec<Node>> {
    built(d, table, &mut |bits, _| rng.pick(bits))
}

/// The same, but small: it tests first what most constructors mask.
pub fn small_tree(d: &Description, table: u32) -> Option<Vec<Node>> {
    built(d, table, &mut |bits, matching| {
        let masking = |bit| matching.iter().filter(|p| masks(p, bit)).count();
        let most = bits.iter().max_by_key(|&&bit| masking(bit));
        *most.expect("there is an undecided bit")
    })
}

fn masks(pattern: &Pattern, (kind, bit): (u8, u8)) -> bool {
    match kind {
        Node::BYTE_TEST => pattern.byte_mask >> bit & 1 == 1,
        _ => pattern.context_mask >> bit & 1 == 1,
    }
}

/// Picks one of the bits for the patterns that a path leaves.
type PickBit<'a> = &'a mut dyn FnMut(&[(u8, u8)], &[Pattern]) -> (u8, u8);

fn built(d: &Description, table: u32, pick: PickBit) -> Option<Vec<Node>> {
    let mut builder = Builder {
        pick,
        description: d,
        records: d.table(table)?,
        nodes: Vec::new(),
    };
    builder.subtree(Pattern::default())?;
    Some(builder.nodes)
}

struct Builder<'a> {
    pick: PickBit<'a>,
    description: &'a Description,
    records: Range<usize>,
    nodes: Vec<Node>,
}

impl Builder<'_> {
    fn subtree(&mut self, path: Pattern) -> Option<()> {
        let matching = self.matching(&path);
        let node = self.nodes.len();
        if node == NODE_LIMIT {
            return None;
        }
        let Some(bit) = self.undecided_bit(&path, &matching) else {
            let place = self.smallest(&matching);
            self.nodes.push(Node::leaf(place));
            return Some(());
        };
        self.nodes.push(Node::test(bit, 0));
        self.subtree(extended(path, bit, false))?;
        self.nodes[node].place = self.nodes.len() as u16;
        self.subtree(extended(path, bit, true))
    }

    fn pattern(&self, record: usize) -> &Pattern {
        &self.description.constructors[record].pattern
    }

    fn matching(&self, path: &Pattern) -> Vec<usize> {
        let overlaps = |&record: &usize| path.overlaps(self.pattern(record));
        self.records.clone().filter(overlaps).collect()
    }

    /// A bit that decides whether some constructor matches.
    fn undecided_bit(&mut self, path: &Pattern, matching: &[usize]) -> Option<(u8, u8)> {
        let patterns: Vec<Pattern> = matching.iter().map(|&i| *self.pattern(i)).collect();
        let masks = patterns.iter().copied().reduce(|a, b| a.overlap(&b))?;
        let bits = bits(
            masks.byte_mask & !path.byte_mask,
            masks.context_mask & !path.context_mask,
        );
        (!bits.is_empty()).then(|| (self.pick)(&bits, &patterns))
    }

    /// The constructor with the most masked bits; in a clear table it is
    /// inside all others.
    fn smallest(&self, matching: &[usize]) -> u16 {
        matching
            .iter()
            .max_by_key(|&&record| self.pattern(record).weight())
            .map_or(NONE, |&record| record as u16)
    }
}

/// The masks' bits as kinds and bits of tests.
pub fn bits(byte_mask: u64, context_mask: u32) -> Vec<(u8, u8)> {
    let byte_bits = (0..64).filter(|bit| byte_mask >> bit & 1 == 1);
    let context_bits = (0..32).filter(|bit| context_mask >> bit & 1 == 1);
    byte_bits
        .map(|bit| (Node::BYTE_TEST, bit))
        .chain(context_bits.map(|bit| (Node::CONTEXT_TEST, bit)))
        .collect()
}

/// The path on one side of a test. A bit out of range adds nothing.
pub fn extended(mut path: Pattern, (kind, bit): (u8, u8), one: bool) -> Pattern {
    if kind == Node::BYTE_TEST {
        let tested = 1_u64.checked_shl(bit.into()).unwrap_or(0);
        path.byte_mask |= tested;
        path.byte_value |= if one { tested } else { 0 };
    } else {
        let tested = 1_u32.checked_shl(bit.into()).unwrap_or(0);
        path.context_mask |= tested;
        path.context_value |= if one { tested } else { 0 };
    }
    path
}
