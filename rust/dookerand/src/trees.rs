//! The tree check of a table, and its tree.

use crate::{answer, Answer};

mod c {
    extern "C" {
        pub fn dookerand_tree(
            description: *const u8,
            description_len: usize,
            table: u32,
            tree: *const u8,
            tree_len: usize,
            values: *mut u64,
        ) -> u32;

        pub fn dookerand_build(
            description: *const u8,
            description_len: usize,
            table: u32,
            tree: *mut u8,
            tree_len: usize,
            values: *mut u64,
        ) -> u32;
    }
}

/// Checks a decision tree of a table: 0 with 0 if it is accepted, or with 1,
/// the first wrong leaf's node, and eight bytes (as a little-endian number)
/// and a context that prove it wrong; or a refusal: 1, 12 or 11.
pub fn tree(description: &[u8], table: u32, tree: &[u8]) -> Answer {
    answer(|values| {
        // SAFETY: slices give readable ranges and, empty too, no null
        // pointers; the call writes the four values alone.
        unsafe {
            c::dookerand_tree(
                description.as_ptr(),
                description.len(),
                table,
                tree.as_ptr(),
                tree.len(),
                values,
            )
        }
    })
}

/// Bytes that suffice for every tree that [`build`] writes: a count, and 4,095
/// nodes of four bytes.
pub const TREE: usize = 2 + 4 * 4095;

/// Builds the decision tree of a table that tests the lowest bits first: 0 with
/// the number of bytes written from the first lent byte on, or a refusal: 1, 12,
/// 15 with the first two records that clash, or 16 if the tree has more than
/// 4,095 nodes or more bytes than are lent. A refusal leaves the lent bytes as
/// they were, and so does 0 those behind its tree, which [`tree`](fn@tree)
/// accepts.
pub fn build(description: &[u8], table: u32, tree: &mut [u8]) -> Answer {
    answer(|values| {
        // SAFETY: slices give readable ranges and, empty too, no null pointers;
        // a mutable slice overlaps no other. The call writes bytes of `tree` and
        // the four values alone.
        unsafe {
            c::dookerand_build(
                description.as_ptr(),
                description.len(),
                table,
                tree.as_mut_ptr(),
                tree.len(),
                values,
            )
        }
    })
}
