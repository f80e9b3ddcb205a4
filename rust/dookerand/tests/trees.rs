//! The tree check through the C face, on description S.

use std::path::Path;

use dookerand::{tree, Answer};
use generate::example::{tree_of, TABLE_1};
use generate::NONE;

fn s() -> Vec<u8> {
    let manifest = Path::new(env!("CARGO_MANIFEST_DIR"));
    std::fs::read(manifest.join("../../examples/s.description")).unwrap()
}

fn answer(number: u32, values: [u64; 4]) -> Answer {
    Answer { number, values }
}

fn bad(node: u64) -> Answer {
    answer(11, [node, 0, 0, 0])
}

fn checked(table: u32, nodes: &[(u8, u8, u16)]) -> Answer {
    tree(&s(), table, &tree_of(nodes))
}

#[test]
fn accepted() {
    assert_eq!(checked(0, &[(0, 0, 0)]), answer(0, [0; 4]));
    assert_eq!(checked(1, &TABLE_1), answer(0, [0; 4]));
}

#[test]
fn none_where_all_matches() {
    let Answer { number, values } = checked(0, &[(0, 0, NONE)]);
    // Any bytes and context prove it.
    assert_eq!((number, &values[..2]), (0, &[1, 0][..]));
    assert!(values[3] <= u32::MAX.into());
}

#[test]
fn the_special_one_left_out() {
    let mut nodes = TABLE_1;
    nodes[13].2 = 1;
    let Answer { number, values } = checked(1, &nodes);
    assert_eq!((number, &values[..2]), (0, &[1, 13][..]));
    assert_eq!(values[2] as u8, 0x1f);
}

#[test]
fn the_first_wrong_leaf() {
    let mut nodes = TABLE_1;
    nodes[10].2 = 2;
    nodes[17].2 = 1;
    let Answer { number, values } = checked(1, &nodes);
    assert_eq!((number, &values[..2]), (0, &[1, 10][..]));
    assert_eq!(values[2] & 0xfe, 0x1c);
}

#[test]
fn counts_and_lengths() {
    let leaf = tree_of(&[(0, 0, 0)]);
    for wrong in [&[][..], &[1], &[0, 0], &leaf[..5], &[0, 0, 0, 0, 0, 0]] {
        assert_eq!(tree(&s(), 0, wrong), bad(65_535));
    }
    assert_eq!(tree(&s(), 0, &[&leaf[..], &[0]].concat()), bad(65_535));
    assert_eq!(checked(0, &[(0, 0, 0); 4096]), bad(65_535));
}

#[test]
fn bad_nodes() {
    assert_eq!(checked(0, &[(3, 0, 0)]), bad(0));
    assert_eq!(checked(0, &[(0, 1, 0)]), bad(0));
    // A constructor of the other table, and one that is not there.
    assert_eq!(checked(0, &[(0, 0, 1)]), bad(0));
    assert_eq!(checked(1, &[(0, 0, 4)]), bad(0));
    assert_eq!(checked(0, &[(1, 64, 2), (0, 0, 0), (0, 0, 0)]), bad(0));
    assert_eq!(checked(0, &[(2, 32, 2), (0, 0, 0), (0, 0, 0)]), bad(0));
}

#[test]
fn a_bit_tested_twice() {
    let mut nodes = TABLE_1;
    nodes[14].1 = 6;
    assert_eq!(checked(1, &nodes), bad(14));
    // The context's bit is another one, so the leaves are judged.
    nodes[14] = (2, 6, 16);
    let Answer { number, values } = checked(1, &nodes);
    assert_eq!((number, &values[..2]), (0, &[1, 15][..]));
}

#[test]
fn left_over_and_run_out() {
    assert_eq!(checked(0, &[(0, 0, 0), (9, 9, 9)]), bad(65_535));
    assert_eq!(checked(1, &TABLE_1[..18]), bad(65_535));
    // A bad node comes before both.
    assert_eq!(checked(0, &[(0, 7, 0), (0, 0, 0)]), bad(0));
    assert_eq!(checked(0, &[(1, 0, 9), (0, 7, 0)]), bad(1));
}

#[test]
fn wrong_one_sides() {
    let mut nodes = TABLE_1;
    nodes[5].2 = 8;
    assert_eq!(checked(1, &nodes), bad(5));
    nodes[11].2 = 14;
    assert_eq!(checked(1, &nodes), bad(5));
    nodes[3].2 = 0;
    assert_eq!(checked(1, &nodes), bad(3));
}

#[test]
fn refused_before_the_tree_is_judged() {
    for table in [2, 9, 64, 256, 257, 65_537, u32::MAX] {
        let no_table = answer(12, [table.into(), 0, 0, 0]);
        assert_eq!(checked(table, &[(0, 0, 0)]), no_table);
        assert_eq!(tree(&s(), table, &[]), no_table);
    }
    for table in [0, 1, 9] {
        let malformed = answer(1, [6, 65_535, 0, 0]);
        assert_eq!(tree(&s()[..215], table, &[]), malformed);
    }
}
