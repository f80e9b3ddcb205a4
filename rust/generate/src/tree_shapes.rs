//! Trees of any shape, and changes of a tree's shape.

use std::ops::Range;

use reference::{ask, Description, Pattern, Refusal};

use crate::tree::{bits, extended, small_tree, Node, NODE_LIMIT, NONE};
use crate::Rng;

/// How a random tree grows.
#[derive(Clone, Debug)]
pub struct Shape {
    /// Kinds and bits that may be tested.
    pub bits: Vec<(u8, u8)>,
    /// Tests in all; fewer where a path has tested every bit.
    pub tests: usize,
    /// Each test has a leaf on one side.
    pub chain: bool,
}

impl Shape {
    /// Few tests, mostly of bits that the table's patterns mask.
    pub fn few(rng: &mut Rng, d: &Description, records: Range<usize>) -> Shape {
        let (mut bytes, mut context) = (0, 0);
        for constructor in &d.constructors[records] {
            bytes |= constructor.pattern.byte_mask;
            context |= constructor.pattern.context_mask;
        }
        let mut bits = bits(bytes, context);
        rng.shuffle(&mut bits);
        bits.truncate(rng.within(1..=8));
        if bits.is_empty() || rng.once_in(4) {
            bits.push(rng.pick(&all_bits()));
        }
        Shape {
            bits,
            tests: rng.within(0..=12),
            chain: rng.once_in(4),
        }
    }
}

pub fn all_bits() -> Vec<(u8, u8)> {
    bits(u64::MAX, u32::MAX)
}

/// A well-formed tree of a table. Most leaves say what the table takes for
/// one of the inputs that reach them, so that many are right.
pub fn random_tree(rng: &mut Rng, d: &Description, table: u32, shape: &Shape) -> Vec<Node> {
    let mut random = Random {
        rng,
        description: d,
        table,
        records: d.table(table).expect("a table of the description"),
        shape,
        nodes: Vec::new(),
    };
    random.subtree(Pattern::default(), shape.tests);
    random.nodes
}

struct Random<'a> {
    rng: &'a mut Rng,
    description: &'a Description,
    table: u32,
    records: Range<usize>,
    shape: &'a Shape,
    nodes: Vec<Node>,
}

impl Random<'_> {
    fn subtree(&mut self, path: Pattern, tests: usize) {
        let bit = match tests {
            0 => None,
            _ => untested(self.rng, &self.shape.bits, &path),
        };
        let Some(bit) = bit else {
            let place = self.place(&path);
            self.nodes.push(Node::leaf(place));
            return;
        };
        let test = self.nodes.len();
        let zero_side = match self.shape.chain {
            true => self.rng.pick(&[0, tests - 1]),
            false => self.rng.below(tests),
        };
        self.nodes.push(Node::test(bit, 0));
        self.subtree(extended(path, bit, false), zero_side);
        self.nodes[test].place = self.nodes.len() as u16;
        self.subtree(extended(path, bit, true), tests - 1 - zero_side);
    }

    fn place(&mut self, path: &Pattern) -> u16 {
        if self.rng.once_in(24) {
            return any_place(self.rng, &self.records);
        }
        let pattern = |record: usize| &self.description.constructors[record].pattern;
        let overlapping = |&record: &usize| path.overlaps(pattern(record));
        let reached: Vec<usize> = self.records.clone().filter(overlapping).collect();
        let input = match reached[..] {
            [] => *path,
            _ => path.overlap(pattern(self.rng.pick(&reached))),
        };
        let bytes = input.byte_value.to_le_bytes();
        match ask(self.description, self.table, input.context_value, &bytes) {
            Ok(taken) => taken.constructor as u16,
            Err(Refusal::NoMatch { .. }) => NONE,
            Err(_) => any_place(self.rng, &self.records),
        }
    }
}

/// A constructor of the table, or none.
pub fn any_place(rng: &mut Rng, records: &Range<usize>) -> u16 {
    match rng.once_in(4) {
        true => NONE,
        false => rng.within(records.start..=records.end - 1) as u16,
    }
}

/// One of the bits that a path has not tested.
pub fn untested(rng: &mut Rng, bits: &[(u8, u8)], path: &Pattern) -> Option<(u8, u8)> {
    let free = |i: usize| extended(*path, bits[i], false) != *path;
    rng.index_where(bits.len(), free).map(|i| bits[i])
}

/// The paths to the nodes in order, as far as the tree goes; places of tests
/// don't matter.
pub fn paths(nodes: &[Node]) -> Vec<Pattern> {
    let mut paths = Vec::new();
    let mut waiting = vec![Pattern::default()];
    for node in nodes {
        let Some(path) = waiting.pop() else {
            break;
        };
        paths.push(path);
        if !node.is_leaf() {
            let bit = (node.kind, node.bit);
            waiting.extend([extended(path, bit, true), extended(path, bit, false)]);
        }
    }
    paths
}

/// Where the subtree from a node on ends, in a well-formed tree.
pub fn subtree_end(nodes: &[Node], mut node: usize) -> usize {
    while !nodes[node].is_leaf() {
        node = nodes[node].place.into();
    }
    node + 1
}

/// Puts a tree in the place of a subtree of a well-formed one.
pub fn replace(nodes: &mut Vec<Node>, subtree: Range<usize>, tree: &[Node]) {
    let new_end = subtree.start + tree.len();
    for node in nodes.iter_mut().filter(|node| !node.is_leaf()) {
        let place = usize::from(node.place);
        if place >= subtree.end {
            node.place = (place - subtree.end + new_end) as u16;
        }
    }
    let start = subtree.start;
    let moved = tree.iter().map(|&node| match node.is_leaf() {
        true => node,
        false => Node::test((node.kind, node.bit), start + usize::from(node.place)),
    });
    nodes.splice(subtree, moved.collect::<Vec<_>>());
}

/// Tests one more bit before some leaf, which stands on both sides then.
pub fn grow(rng: &mut Rng, nodes: &mut Vec<Node>) {
    let leaf = rng.index_where(nodes.len(), |i| nodes[i].is_leaf());
    grow_leaf(rng, nodes, leaf.expect("a tree has a leaf"));
}

/// Nothing if the leaf's path has tested every bit.
fn grow_leaf(rng: &mut Rng, nodes: &mut Vec<Node>, leaf: usize) -> Option<()> {
    let bit = untested(rng, &all_bits(), &paths(nodes)[leaf])?;
    let both = [Node::test(bit, 2), nodes[leaf], nodes[leaf]];
    replace(nodes, leaf..leaf + 1, &both);
    Some(())
}

/// A tree with a leaf whose path tests every bit, right if the table is
/// clear; and that leaf. It leaves room for one more test.
pub fn deep_tree(rng: &mut Rng, d: &Description, table: u32) -> Option<(Vec<Node>, usize)> {
    let room = NODE_LIMIT - 2 * (all_bits().len() + 1);
    let mut nodes = small_tree(d, table).filter(|nodes| nodes.len() <= room)?;
    let mut leaf = rng.index_where(nodes.len(), |i| nodes[i].is_leaf())?;
    while grow_leaf(rng, &mut nodes, leaf).is_some() {
        leaf += rng.within(1..=2);
    }
    Some((nodes, leaf))
}

/// Puts a leaf of a subtree in the subtree's place.
pub fn prune(rng: &mut Rng, nodes: &mut Vec<Node>) {
    let Some(test) = rng.index_where(nodes.len(), |i| !nodes[i].is_leaf()) else {
        return;
    };
    let subtree = test..subtree_end(nodes, test);
    let leaf = rng.index_where(subtree.len(), |i| nodes[test + i].is_leaf());
    let leaf = nodes[test + leaf.expect("a subtree has a leaf")];
    replace(nodes, subtree, &[leaf]);
}

/// A tree of the most nodes, right if the table is clear.
pub fn largest_tree(rng: &mut Rng, d: &Description, table: u32) -> Option<Vec<Node>> {
    let mut nodes = small_tree(d, table)?;
    while nodes.len() < NODE_LIMIT {
        grow(rng, &mut nodes);
    }
    Some(nodes)
}
