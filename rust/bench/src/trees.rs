//! The tree check.

use std::hint::black_box;

use dookerand::Answer;
use generate::{largest_tree, tree_bytes, Rng};

use crate::choosing::{Set, TABLE};
use crate::timing::MANY;

pub fn all() {
    let set = Set::new(512);
    let tree = tree(&set);
    let proved = |_| {
        let answer = dookerand::tree(black_box(&set.bytes), TABLE, black_box(&tree));
        assert_eq!((black_box(answer).number, answer.values), (0, [0; 4]));
    };
    let whole = |_| {
        let answer = reference::requests::tree(black_box(&set.bytes), TABLE, black_box(&tree));
        assert_eq!(black_box(answer.number_and_values()), (0, [0; 4]));
    };
    let proper = |_| {
        let description = black_box(&set.description);
        let verdict = reference::tree_check(description, TABLE, black_box(&tree));
        assert_eq!(black_box(verdict), Ok(reference::Verdict::Accepted));
    };
    set.compare("tree of 4,095 nodes", (MANY, 1), [&proved, &whole, &proper]);
}

pub fn one_tree() -> Answer {
    let set = Set::new(512);
    let tree = tree(&set);
    dookerand::tree(black_box(&set.bytes), TABLE, black_box(&tree))
}

/// A right tree of the most nodes, so that every leaf is looked at.
fn tree(set: &Set) -> Vec<u8> {
    let nodes = largest_tree(&mut Rng::new(1), &set.description, TABLE);
    tree_bytes(&nodes.expect("the set's smallest tree has fewer nodes"))
}
