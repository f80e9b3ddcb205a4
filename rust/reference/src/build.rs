//! Building the decision tree of a clear table.

use crate::answer::Refusal;
use crate::clash::{clash, Clash};
use crate::description::{Description, Pattern};
use crate::tree::{Node, BYTE_TEST, CONTEXT_TEST, LEAF, NODE_LIMIT, NONE};

/// The bytes of the tree that tests the lowest bits first.
pub fn build(description: &Description, table: u32) -> Result<Vec<u8>, Refusal> {
    let records = description.table(table).ok_or(Refusal::NoTable { table })?;
    if let Clash::Pair(i, j) = clash(description, table)? {
        return Err(Refusal::Clashing(i, j));
    }
    let mut tree = Tree {
        description,
        nodes: Vec::new(),
    };
    tree.subtree(&Pattern::default(), records.collect())?;
    Ok(tree.bytes())
}

/// A tested bit: a byte bit comes before every context bit.
#[derive(Clone, Copy)]
enum Bit {
    Byte(u8),
    Context(u8),
}

impl Bit {
    fn kind_and_number(self) -> (u8, u8) {
        match self {
            Bit::Byte(bit) => (BYTE_TEST, bit),
            Bit::Context(bit) => (CONTEXT_TEST, bit),
        }
    }

    /// The path with this bit on it.
    fn on(self, path: &Pattern, one: bool) -> Pattern {
        let mut path = *path;
        match self {
            Bit::Byte(bit) => {
                path.byte_mask |= 1 << bit;
                path.byte_value |= u64::from(one) << bit;
            }
            Bit::Context(bit) => {
                path.context_mask |= 1 << bit;
                path.context_value |= u32::from(one) << bit;
            }
        }
        path
    }
}

/// The nodes so far.
struct Tree<'a> {
    description: &'a Description,
    nodes: Vec<Node>,
}

impl Tree<'_> {
    fn pattern(&self, record: usize) -> &Pattern {
        &self.description.constructors[record].pattern
    }

    /// Adds the nodes behind a path, with which these patterns agree.
    fn subtree(&mut self, path: &Pattern, live: Vec<usize>) -> Result<(), Refusal> {
        if live.is_empty() {
            return self.add(LEAF, 0, NONE);
        }
        if let Some(record) = self.decided(path, &live) {
            return self.add(LEAF, 0, record as u16);
        }
        let bit = self.lowest_bit(path, &live);
        let (kind, number) = bit.kind_and_number();
        let test = self.nodes.len();
        self.add(kind, number, 0)?;
        self.side(&bit.on(path, false), &live)?;
        self.nodes[test].place = self.nodes.len() as u16;
        self.side(&bit.on(path, true), &live)
    }

    /// Adds the nodes of one side of a test: of the patterns that agreed before
    /// it, some agree still.
    fn side(&mut self, path: &Pattern, live: &[usize]) -> Result<(), Refusal> {
        let agrees = |&record: &usize| path.overlaps(self.pattern(record));
        let live = live.iter().copied().filter(agrees).collect();
        self.subtree(path, live)
    }

    fn add(&mut self, kind: u8, bit: u8, place: u16) -> Result<(), Refusal> {
        if self.nodes.len() == NODE_LIMIT {
            return Err(Refusal::TreeTooLarge);
        }
        self.nodes.push(Node { kind, bit, place });
        Ok(())
    }

    /// The live pattern with all its bits on the path and inside all others.
    fn decided(&self, path: &Pattern, live: &[usize]) -> Option<usize> {
        let inside_all = |&record: &usize| {
            let pattern = self.pattern(record);
            path.lies_inside(pattern)
                && live
                    .iter()
                    .all(|&other| pattern.lies_inside(self.pattern(other)))
        };
        live.iter().copied().find(inside_all)
    }

    /// The lowest bit off the path that a live pattern masks. There is one: in a
    /// clear table, of patterns that all match one is inside all others.
    fn lowest_bit(&self, path: &Pattern, live: &[usize]) -> Bit {
        let (mut bytes, mut context) = (0, 0);
        for &record in live {
            bytes |= self.pattern(record).byte_mask;
            context |= self.pattern(record).context_mask;
        }
        bytes &= !path.byte_mask;
        context &= !path.context_mask;
        match bytes {
            0 => Bit::Context(context.trailing_zeros() as u8),
            _ => Bit::Byte(bytes.trailing_zeros() as u8),
        }
    }

    fn bytes(&self) -> Vec<u8> {
        let mut bytes = (self.nodes.len() as u16).to_le_bytes().to_vec();
        for node in &self.nodes {
            bytes.extend([node.kind, node.bit]);
            bytes.extend(node.place.to_le_bytes());
        }
        bytes
    }
}
