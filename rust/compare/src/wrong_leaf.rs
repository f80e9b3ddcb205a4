//! Wrong leaves found by trying inputs: what reaches a leaf and what the
//! table takes decide, no rule about patterns.

use std::iter::successors;
use std::ops::Range;

use generate::{Node, NONE};
use reference::{ask, Description, Refusal};

/// The nodes of a well-formed tree.
pub fn nodes_of(tree: &[u8]) -> Vec<Node> {
    let node = |&[kind, bit, place_0, place_1]: &[u8; 4]| Node {
        kind,
        bit,
        place: u16::from_le_bytes([place_0, place_1]),
    };
    tree[2..].as_chunks().0.iter().map(node).collect()
}

/// The leaf that an input reaches in a well-formed tree.
fn reached(nodes: &[Node], bytes: u64, context: u32) -> usize {
    let mut at = 0;
    loop {
        let Node { kind, bit, place } = nodes[at];
        let one = match kind {
            Node::LEAF => return at,
            Node::BYTE_TEST => bytes >> bit & 1 == 1,
            _ => context >> bit & 1 == 1,
        };
        at = if one { place.into() } else { at + 1 };
    }
}

/// The table doesn't do with the input what the place says.
fn contradicts(d: &Description, table: u32, place: u16, bytes: u64, context: u32) -> bool {
    match ask(d, table, context, &bytes.to_le_bytes()) {
        Ok(taken) => taken.constructor != usize::from(place),
        Err(Refusal::NoMatch { .. }) => place != NONE,
        Err(_) => true,
    }
}

/// The input reaches the leaf and proves it wrong.
pub fn proves_wrong(
    d: &Description,
    table: u32,
    nodes: &[Node],
    leaf: usize,
    bytes: u64,
    context: u32,
) -> bool {
    reached(nodes, bytes, context) == leaf
        && contradicts(d, table, nodes[leaf].place, bytes, context)
}

/// The bits that a table and a tree look at.
#[derive(Clone, Copy)]
pub struct Bits {
    bytes: u64,
    context: u32,
}

impl Bits {
    pub fn count(self) -> u32 {
        self.bytes.count_ones() + self.context.count_ones()
    }
}

/// These bits, if they are few.
pub fn few_bits(d: &Description, records: &Range<usize>, nodes: &[Node]) -> Option<Bits> {
    let (mut bytes, mut context) = (0, 0);
    for constructor in &d.constructors[records.clone()] {
        bytes |= constructor.pattern.byte_mask;
        context |= constructor.pattern.context_mask;
    }
    for node in nodes {
        match node.kind {
            Node::LEAF => {}
            Node::BYTE_TEST => bytes |= 1 << node.bit,
            _ => context |= 1 << node.bit,
        }
    }
    let few = bytes.count_ones() <= 12 && context.count_ones() <= 4;
    few.then_some(Bits { bytes, context })
}

/// Each value of the mask's bits.
fn values(mask: u64) -> impl Iterator<Item = u64> {
    successors(Some(0_u64), move |value| {
        let next = value.wrapping_sub(mask) & mask;
        (next != 0).then_some(next)
    })
}

/// The first leaf that some input proves wrong. Other bits than these make
/// no difference.
pub fn first_wrong_leaf(d: &Description, table: u32, nodes: &[Node], bits: Bits) -> Option<usize> {
    let mut first = nodes.len();
    for bytes in values(bits.bytes) {
        for context in values(bits.context.into()).map(|context| context as u32) {
            let leaf = reached(nodes, bytes, context);
            if leaf < first && contradicts(d, table, nodes[leaf].place, bytes, context) {
                first = leaf;
            }
        }
    }
    (first < nodes.len()).then_some(first)
}
