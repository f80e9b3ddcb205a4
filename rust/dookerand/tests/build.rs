//! Building trees through the C face, on description S and on tables made for
//! it.

use std::path::Path;

use dookerand::{build, tree, Answer, TREE};
use generate::example::{constructor, tree_of};
use generate::{
    bytes, deepest_full_table, deepest_table, largest_tree_table, one_table, table_with_tests, Rng,
    NODE_LIMIT, NONE,
};

fn s() -> Vec<u8> {
    let manifest = Path::new(env!("CARGO_MANIFEST_DIR"));
    std::fs::read(manifest.join("../../examples/s.description")).unwrap()
}

/// S with another first byte of constructor 2's mask and value: 11 matches it
/// and constructor 1.
fn clashing() -> Vec<u8> {
    let mut changed = s();
    let record = 22 + 32 * 2;
    changed[record + 2] = 0x0f;
    changed[record + 10] = 0x01;
    changed
}

fn answer(number: u32, values: [u64; 4]) -> Answer {
    Answer { number, values }
}

fn done(bytes: usize) -> Answer {
    answer(0, [bytes as u64, 0, 0, 0])
}

/// What the lent bytes are before a call.
fn untouched(length: usize) -> Vec<u8> {
    (0..length).map(|i| (101 * i) as u8 ^ 0xa5).collect()
}

/// With so many bytes lent it is refused, and none of them changes.
fn refuses(description: &[u8], table: u32, length: usize, refusal: Answer) {
    let mut lent = untouched(length);
    assert_eq!(build(description, table, &mut lent), refusal);
    assert_eq!(lent, untouched(length), "table {table}, {length} lent");
}

/// The tree, which is accepted, and nothing is written behind it.
fn built(description: &[u8], table: u32) -> Vec<u8> {
    let mut lent = untouched(TREE + 9);
    let Answer { number, values } = build(description, table, &mut lent);
    let length = values[0] as usize;
    assert_eq!(answer(number, values), done(length));
    assert_eq!(lent[length..], untouched(TREE + 9)[length..]);
    lent.truncate(length);
    assert_eq!(tree(description, table, &lent), answer(0, [0; 4]));
    lent
}

fn nodes(description: &[u8], table: u32) -> usize {
    let tree = built(description, table);
    assert_eq!(tree.len() % 4, 2);
    tree.len() / 4
}

#[test]
fn tables_of_s() {
    assert_eq!(built(&s(), 0), tree_of(&[(0, 0, 0)]));
    assert_eq!(nodes(&s(), 1), 79);
}

/// The zero side first, and byte bits before context bits.
#[test]
fn the_order_of_nodes() {
    let pattern = |minimum, mask| constructor(0, minimum, (mask, 0), (0, 0), (0, 0));
    let mut d = one_table(&[]);
    d.constructors = vec![pattern(0, 0), pattern(1, 2), pattern(1, 2)];
    for by_context in &mut d.constructors[..2] {
        by_context.pattern.context_mask = 1;
        by_context.pattern.context_value = 1;
    }
    let nodes = [
        (1, 1, 4),
        (2, 0, 3),
        (0, 0, 2),
        (0, 0, 1),
        (2, 0, 6),
        (0, 0, NONE),
        (0, 0, 0),
    ];
    assert_eq!(built(&bytes(&d), 0), tree_of(&nodes));
}

#[test]
fn the_most_nodes_and_tests() {
    let rng = &mut Rng::new(1);
    assert_eq!(nodes(&bytes(&largest_tree_table()), 0), NODE_LIMIT);
    let most = table_with_tests(rng, NODE_LIMIT / 2);
    assert_eq!(nodes(&bytes(&most), 0), NODE_LIMIT);
    let above = bytes(&table_with_tests(rng, NODE_LIMIT / 2 + 1));
    refuses(&above, 0, TREE, answer(16, [0; 4]));
    refuses(&above, 0, 4 * TREE, answer(16, [0; 4]));
    assert_eq!(nodes(&bytes(&deepest_table(rng)), 0), 2 * 96 + 1);
    let deep = bytes(&deepest_full_table(rng));
    assert_eq!(nodes(&deep, 0), 2 * (96 - 9) + 1023);
}

/// Lent bytes up to one too few, just enough, and more.
#[test]
fn lent_bytes() {
    let trees = [0, 1].map(|table| (table, built(&s(), table)));
    assert_eq!(trees[1].1.len(), 318);
    for (table, tree) in trees {
        let size = tree.len();
        for length in 0..size {
            refuses(&s(), table, length, answer(16, [0; 4]));
        }
        for length in [size, size + 1, size + 2, TREE] {
            let mut lent = untouched(length);
            assert_eq!(build(&s(), table, &mut lent), done(size));
            assert_eq!(lent[..size], tree);
            assert_eq!(lent[size..], untouched(length)[size..]);
        }
    }
}

/// 1, 12, 15, 16, however much is lent.
#[test]
fn the_order_of_refusals() {
    let malformed = answer(1, [6, 65_535, 0, 0]);
    for length in [0, 1, 2, TREE] {
        for table in [0, 1, 2, 257] {
            refuses(&clashing()[..215], table, length, malformed);
        }
        for table in [2, 9, 64, 256, 257, 65_537, u32::MAX] {
            let no_table = answer(12, [table.into(), 0, 0, 0]);
            refuses(&clashing(), table, length, no_table);
        }
        refuses(&clashing(), 1, length, answer(15, [1, 2, 0, 0]));
    }
    // The other table's clash is none of this one's.
    assert_eq!(nodes(&clashing(), 0), 1);
    refuses(&clashing(), 0, 5, answer(16, [0; 4]));
}
