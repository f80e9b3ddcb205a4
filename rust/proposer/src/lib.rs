//! Proposes decision trees. A tree may test its bits in any order, and which it
//! tests first makes it small or large: `build` of the library has a fixed rule,
//! and here the bits are chosen so that the tree is small. Nothing of this is
//! proved or has to be: what a tree is worth the proved check says.

mod bits;
mod live;
mod tree;

use reference::{check, clash, Clash, Refusal};

use live::Live;
use tree::Tree;

pub use tree::{depth, nodes};

/// The bytes of a tree for a table, or why there is none: the description is
/// malformed, it has no such table, the table clashes, or the tree that was
/// found has more nodes than a tree may have.
pub fn propose(description: &[u8], table: u32) -> Result<Vec<u8>, Refusal> {
    let description = check(description)?;
    let records = description.table(table).ok_or(Refusal::NoTable { table })?;
    if let Clash::Pair(i, j) = clash(&description, table)? {
        return Err(Refusal::Clashing(i, j));
    }
    let live = Live::all(&description, records);
    let tree = Tree::of(&live).ok_or(Refusal::TreeTooLarge)?;
    Ok(tree.bytes())
}
