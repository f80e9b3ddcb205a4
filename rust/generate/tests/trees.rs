//! Decision trees for the tree check.

use generate::{
    bytes, deep_tree, grow, instruction_set, largest_tree, meeting_tables, prune, random_tree,
    small_tree, table_ranges, tree_bytes, tree_count_faults, tree_nodes, Node, Records, Rng, Shape,
    TREE_RULES, WHOLE_TREE,
};
use reference::{clash, tree_check, Clash, Description, Refusal, Verdict};

fn checked(d: &Description, table: u32, nodes: &[Node]) -> Result<Verdict, Refusal> {
    tree_check(d, table, &tree_bytes(nodes))
}

/// Runs a function on the tables of random descriptions.
fn each_table(rng: &mut Rng, mut run: impl FnMut(&mut Rng, &Description, u32, &Records)) {
    for _ in 0..150 {
        let d = meeting_tables(rng, 4);
        assert!(reference::check(&bytes(&d)).is_ok());
        for of_table in table_ranges(&d) {
            let table = d.constructors[of_table.start].table.into();
            let all = d.constructors.len();
            run(rng, &d, table, &Records { of_table, all });
        }
    }
}

#[test]
fn right_trees_of_clear_tables() {
    each_table(&mut Rng::new(10), |rng, d, table, _| {
        if clash(d, table) != Ok(Clash::Clear) {
            return;
        }
        let deep = deep_tree(rng, d, table).map(|(nodes, _)| nodes);
        let trees = [tree_nodes(rng, d, table), small_tree(d, table), deep];
        for mut nodes in trees.into_iter().flatten() {
            assert_eq!(checked(d, table, &nodes), Ok(Verdict::Accepted));
            grow(rng, &mut nodes);
            assert_eq!(checked(d, table, &nodes), Ok(Verdict::Accepted));
        }
    });
}

#[test]
fn other_shapes_are_well_formed() {
    each_table(&mut Rng::new(11), |rng, d, table, records| {
        let shape = Shape::few(rng, d, records.of_table.clone());
        let mut nodes = random_tree(rng, d, table, &shape);
        assert!(checked(d, table, &nodes).is_ok());
        prune(rng, &mut nodes);
        assert!(checked(d, table, &nodes).is_ok());
    });
}

#[test]
fn broken_rules() {
    let mut broken = [0; TREE_RULES.len()];
    each_table(&mut Rng::new(12), |rng, d, table, records| {
        let Some(right) = tree_nodes(rng, d, table) else {
            return;
        };
        for (i, (name, break_rule)) in TREE_RULES.iter().enumerate() {
            let mut nodes = right.clone();
            if let Some(node) = break_rule(&mut nodes, records, rng) {
                let bad = Err(Refusal::BadTree { node });
                assert_eq!(checked(d, table, &nodes), bad, "{name}");
                broken[i] += 1;
            }
        }
        for tree in tree_count_faults(&right, rng) {
            let bad = Err(Refusal::BadTree { node: WHOLE_TREE });
            assert_eq!(tree_check(d, table, &tree), bad);
        }
    });
    assert!(broken.iter().all(|&count| count > 50), "{broken:?}");
}

#[test]
fn the_largest_tree_of_an_instruction_set() {
    let d = instruction_set(512);
    let nodes = largest_tree(&mut Rng::new(1), &d, 0).unwrap();
    assert_eq!(nodes.len(), 4095);
    assert_eq!(checked(&d, 0, &nodes), Ok(Verdict::Accepted));
}
