//! The tree check: does a decision tree answer as the table does?

use std::ops::Range;

use crate::answer::Refusal;
use crate::description::{Description, Pattern};

/// What a well-formed tree is told.
#[derive(Clone, Copy, Debug, PartialEq, Eq)]
pub enum Verdict {
    Accepted,
    /// The first wrong leaf, and bytes and a context that prove it wrong.
    Rejected {
        node: usize,
        bytes: [u8; 8],
        context: u32,
    },
}

/// The node named where the fault is no single node's, and a leaf's place
/// for no constructor.
pub const NONE: u16 = 65_535;

/// The most nodes of a tree.
pub const NODE_LIMIT: usize = 4095;

pub const LEAF: u8 = 0;
pub const BYTE_TEST: u8 = 1;
pub const CONTEXT_TEST: u8 = 2;

#[derive(Clone, Copy)]
pub struct Node {
    pub kind: u8,
    pub bit: u8,
    pub place: u16,
}

/// A leaf with the inputs that reach it: its path, as a pattern.
struct Leaf {
    node: usize,
    constructor: Option<usize>,
    path: Pattern,
}

/// Checks a decision tree of a table against Choosing.
pub fn tree_check(description: &Description, table: u32, tree: &[u8]) -> Result<Verdict, Refusal> {
    let records = description.table(table).ok_or(Refusal::NoTable { table })?;
    let leaves = read_nodes(tree)
        .and_then(|nodes| leaves(&nodes, &records))
        .map_err(|node| Refusal::BadTree { node })?;
    let counterexample =
        |leaf: &Leaf| Some((leaf.node, counterexample(description, &records, leaf)?));
    Ok(match leaves.iter().find_map(counterexample) {
        None => Verdict::Accepted,
        Some((node, input)) => Verdict::Rejected {
            node,
            bytes: input.byte_value.to_le_bytes(),
            context: input.context_value,
        },
    })
}

fn read_nodes(tree: &[u8]) -> Result<Vec<Node>, u16> {
    let (count, records) = tree.split_first_chunk().ok_or(NONE)?;
    let count = usize::from(u16::from_le_bytes(*count));
    if !(1..=NODE_LIMIT).contains(&count) || records.len() != 4 * count {
        return Err(NONE);
    }
    let node = |&[kind, bit, place_0, place_1]: &[u8; 4]| Node {
        kind,
        bit,
        place: u16::from_le_bytes([place_0, place_1]),
    };
    Ok(records.as_chunks().0.iter().map(node).collect())
}

/// A subtree still to come: its path and, for a one side, its test's node.
struct Side {
    path: Pattern,
    one_side_of: Option<usize>,
}

/// The leaves in node order, or the bad node.
fn leaves(nodes: &[Node], records: &Range<usize>) -> Result<Vec<Leaf>, u16> {
    let mut leaves = Vec::new();
    let mut one_sides = Vec::new();
    let mut next = 0;
    let mut waiting = vec![Side {
        path: Pattern::default(),
        one_side_of: None,
    }];
    while let Some(Side { path, one_side_of }) = waiting.pop() {
        one_sides.extend(one_side_of.map(|test| (test, next)));
        let node = nodes.get(next).ok_or(NONE)?;
        if node.kind == LEAF {
            leaves.push(Leaf {
                node: next,
                constructor: leaf_constructor(node, records).ok_or(next as u16)?,
                path,
            });
        } else {
            waiting.extend(both_sides(node, next, &path).ok_or(next as u16)?);
        }
        next += 1;
    }
    if next < nodes.len() {
        return Err(NONE);
    }
    match first_wrong_place(nodes, &one_sides) {
        Some(test) => Err(test as u16),
        None => Ok(leaves),
    }
}

/// The lowest test whose place is not where its one side starts; the one
/// sides come in the order of their starts.
fn first_wrong_place(nodes: &[Node], one_sides: &[(usize, usize)]) -> Option<usize> {
    one_sides
        .iter()
        .filter(|&&(test, start)| usize::from(nodes[test].place) != start)
        .map(|&(test, _)| test)
        .min()
}

/// The constructor that a leaf names or, inside, none; nothing for a bad
/// leaf.
fn leaf_constructor(leaf: &Node, records: &Range<usize>) -> Option<Option<usize>> {
    let place = usize::from(leaf.place);
    match leaf {
        Node { bit: 1.., .. } => None,
        Node { place: NONE, .. } => Some(None),
        _ => records.contains(&place).then_some(Some(place)),
    }
}

/// A test's one side and its zero side, which comes first and so is last
/// to wait; nothing for a bad test.
fn both_sides(test: &Node, number: usize, path: &Pattern) -> Option<[Side; 2]> {
    let (mut zero, mut one) = (*path, *path);
    match (test.kind, test.bit) {
        (BYTE_TEST, bit @ 0..=63) if path.byte_mask >> bit & 1 == 0 => {
            zero.byte_mask |= 1 << bit;
            one.byte_mask |= 1 << bit;
            one.byte_value |= 1 << bit;
        }
        (CONTEXT_TEST, bit @ 0..=31) if path.context_mask >> bit & 1 == 0 => {
            zero.context_mask |= 1 << bit;
            one.context_mask |= 1 << bit;
            one.context_value |= 1 << bit;
        }
        _ => return None,
    }
    let side = |path, one_side_of| Side { path, one_side_of };
    Some([side(one, Some(number)), side(zero, None)])
}

/// An input, as a pattern's values, that reaches the leaf and proves it
/// wrong.
fn counterexample(
    description: &Description,
    records: &Range<usize>,
    leaf: &Leaf,
) -> Option<Pattern> {
    let pattern = |record: usize| &description.constructors[record].pattern;
    let reached = |other: &&Pattern| leaf.path.overlaps(other);
    let Some(named) = leaf.constructor else {
        let matching = records.clone().map(pattern).find(reached)?;
        return Some(leaf.path.overlap(matching));
    };
    if !leaf.path.lies_inside(pattern(named)) {
        return Some(missing(&leaf.path, pattern(named)));
    }
    // The named one is taken unless it isn't strictly inside another match.
    let rival = records
        .clone()
        .filter(|&other| other != named)
        .map(pattern)
        .filter(reached)
        .find(|other| !pattern(named).lies_inside(other) || other.lies_inside(pattern(named)))?;
    Some(leaf.path.overlap(rival))
}

/// An input on the path that the pattern, which the path is not inside,
/// doesn't match.
fn missing(path: &Pattern, pattern: &Pattern) -> Pattern {
    let mut input = *path;
    // Each bit left free by the path gets the value that the pattern forbids.
    input.byte_value |= pattern.byte_mask & !pattern.byte_value & !path.byte_mask;
    input.context_value |= pattern.context_mask & !pattern.context_value & !path.context_mask;
    input
}
