//! Trees with single rules broken.

use std::ops::Range;

use reference::Pattern;

use crate::tree::{extended, tree_bytes, Node, NODE_LIMIT, NONE};
use crate::tree_shapes::{all_bits, paths, replace, untested};
use crate::Rng;

/// The node named where the fault is no single node's.
pub const WHOLE_TREE: u16 = 65_535;

/// The constructors of the tree's table, and how many there are in all.
#[derive(Clone, Debug)]
pub struct Records {
    pub of_table: Range<usize>,
    pub all: usize,
}

/// A tree's nodes, of which there may come to be more or fewer.
type Nodes = Vec<Node>;

/// Breaks a rule in a well-formed tree; the node to be named, if the rule
/// can be broken there. On a tree with a fault already it breaks something.
pub type TreeRule = fn(&mut Nodes, &Records, &mut Rng) -> Option<u16>;

pub const TREE_RULES: &[(&str, TreeRule)] = &[
    ("unknown kind", unknown_kind),
    ("leaf's bit not 0", leaf_bit),
    ("leaf of another table", other_table),
    ("leaf of no constructor", no_constructor),
    ("byte bit out of range", byte_bit),
    ("context bit out of range", context_bit),
    ("bit tested twice", tested_twice),
    ("bit tested twice, last", tested_twice_last),
    ("one side wrong", one_side),
    ("nodes left over", left_over),
    ("nodes run out", run_out),
];

fn node_where(rng: &mut Rng, nodes: &[Node], test: fn(&Node) -> bool) -> Option<usize> {
    rng.index_where(nodes.len(), |i| test(&nodes[i]))
}

fn unknown_kind(nodes: &mut Nodes, _: &Records, rng: &mut Rng) -> Option<u16> {
    let at = rng.below(nodes.len());
    nodes[at].kind = match rng.once_in(2) {
        true => 3,
        false => rng.byte_within(3..=255),
    };
    Some(at as u16)
}

fn leaf_bit(nodes: &mut Nodes, _: &Records, rng: &mut Rng) -> Option<u16> {
    let at = node_where(rng, nodes, Node::is_leaf)?;
    nodes[at].bit = match rng.once_in(2) {
        true => 1 << rng.below(8),
        false => rng.byte_within(1..=255),
    };
    Some(at as u16)
}

fn other_table(nodes: &mut Nodes, records: &Records, rng: &mut Rng) -> Option<u16> {
    let at = node_where(rng, nodes, Node::is_leaf)?;
    let of_table = &records.of_table;
    let other = rng.index_where(records.all, |i| !of_table.contains(&i))?;
    // The neighbours of the table's own are the easiest to let in.
    let near = [of_table.start.wrapping_sub(1), of_table.end];
    let near = rng
        .index_where(2, |i| near[i] < records.all)
        .map(|i| near[i]);
    let place = near.filter(|_| rng.once_in(2)).unwrap_or(other);
    nodes[at].place = place as u16;
    Some(at as u16)
}

fn no_constructor(nodes: &mut Nodes, records: &Records, rng: &mut Rng) -> Option<u16> {
    let at = node_where(rng, nodes, Node::is_leaf)?;
    let all = records.all as u16;
    let any = rng.within(records.all..=65_534) as u16;
    nodes[at].place = rng.pick(&[all, 65_534, 65_280, any]);
    Some(at as u16)
}

fn byte_bit(nodes: &mut Nodes, _: &Records, rng: &mut Rng) -> Option<u16> {
    let at = node_where(rng, nodes, |node| node.kind == Node::BYTE_TEST)?;
    let any = rng.byte_within(64..=255);
    nodes[at].bit = rng.pick(&[64, 65, 127, 128, 255, any]);
    Some(at as u16)
}

fn context_bit(nodes: &mut Nodes, _: &Records, rng: &mut Rng) -> Option<u16> {
    let at = node_where(rng, nodes, |node| !node.is_leaf())?;
    let any = rng.byte_within(32..=255);
    nodes[at].kind = Node::CONTEXT_TEST;
    nodes[at].bit = rng.pick(&[32, 33, 63, 64, 255, any]);
    Some(at as u16)
}

/// A test takes over a bit of its path.
fn tested_twice(nodes: &mut Nodes, _: &Records, rng: &mut Rng) -> Option<u16> {
    let paths = paths(nodes);
    let below_test = |i: usize| !nodes[i].is_leaf() && paths[i] != Pattern::default();
    let at = rng.index_where(paths.len(), below_test)?;
    (nodes[at].kind, nodes[at].bit) = tested(rng, &paths[at])?;
    Some(at as u16)
}

/// A leaf gives way to a test of its path's bit, which goes on as before.
fn tested_twice_last(nodes: &mut Nodes, _: &Records, rng: &mut Rng) -> Option<u16> {
    let paths = paths(nodes);
    let room = nodes.len() + 2 <= NODE_LIMIT;
    let at = rng.index_where(paths.len(), |i| room && nodes[i].is_leaf())?;
    let bit = tested(rng, &paths[at])?;
    let both = [Node::test(bit, 2), nodes[at], nodes[at]];
    replace(nodes, at..at + 1, &both);
    Some(at as u16)
}

fn tested(rng: &mut Rng, path: &Pattern) -> Option<(u8, u8)> {
    let mut bits = all_bits();
    bits.retain(|&bit| extended(*path, bit, false) == *path);
    (!bits.is_empty()).then(|| rng.pick(&bits))
}

fn one_side(nodes: &mut Nodes, _: &Records, rng: &mut Rng) -> Option<u16> {
    let at = node_where(rng, nodes, |node| !node.is_leaf())?;
    let right = nodes[at].place;
    let count = nodes.len();
    let any = rng.below(count) as u16;
    let others = [
        right.wrapping_add(1),
        right.wrapping_sub(1),
        right ^ 0x100,
        at as u16,
        at as u16 + 1,
        0,
        count as u16,
        65_535,
        any,
    ];
    let other = rng.index_where(others.len(), |i| others[i] != right)?;
    nodes[at].place = others[other];
    Some(at as u16)
}

/// Nodes past the tree's end are not judged, so they may be anything.
fn left_over(nodes: &mut Nodes, _: &Records, rng: &mut Rng) -> Option<u16> {
    let room = NODE_LIMIT - nodes.len().min(NODE_LIMIT);
    for _ in 0..rng.within(1..=3).min(room) {
        let copy = rng.pick(nodes);
        nodes.push(match rng.once_in(2) {
            true => copy,
            false => any_node(rng),
        });
    }
    (room > 0).then_some(WHOLE_TREE)
}

/// Without the last nodes, or with a test as the last.
fn run_out(nodes: &mut Nodes, _: &Records, rng: &mut Rng) -> Option<u16> {
    if nodes.len() > 1 && rng.once_in(2) {
        nodes.truncate(rng.within(1..=nodes.len() - 1));
        return Some(WHOLE_TREE);
    }
    let last = nodes.len() - 1;
    let path = *paths(nodes).get(last)?;
    let bit = untested(rng, &all_bits(), &path)?;
    nodes[last] = Node::test(bit, nodes.len());
    Some(WHOLE_TREE)
}

/// Mostly a kind and bit that a node can have.
pub fn any_node(rng: &mut Rng) -> Node {
    Node {
        kind: rng.pick(&[0, 0, 0, 1, 1, 2, 3]),
        bit: rng.pick(&[0, 0, 1, 5, 31, 32, 63, 64]),
        place: rng.pick(&[0, 0, 1, 2, 3, NONE]),
    }
}

/// Every way in which a tree's count or length can be wrong.
pub fn tree_count_faults(nodes: &[Node], rng: &mut Rng) -> Vec<Vec<u8>> {
    let right = tree_bytes(nodes);
    let count = nodes.len() as u16;
    let with_count = |count: u16| [&count.to_le_bytes(), &right[2..]].concat();
    let lengths = [0, 1, 2, right.len() - 4, right.len() - 1];
    let mut faults: Vec<Vec<u8>> = lengths.iter().map(|&cut| right[..cut].to_vec()).collect();
    faults.extend([0, count - 1, count + 1, count ^ 0x100, 4096, 65_535].map(with_count));
    for longer in [1, 2, 3, 4, rng.within(5..=40)] {
        faults.push([&right[..], &vec![rng.byte(); longer]].concat());
    }
    faults.push(vec![0, 0]);
    faults
}

/// Bytes of so many nodes, which are these again and again.
pub fn repeated(nodes: &[Node], count: usize) -> Vec<u8> {
    let repeated: Vec<Node> = nodes.iter().copied().cycle().take(count).collect();
    tree_bytes(&repeated)
}
