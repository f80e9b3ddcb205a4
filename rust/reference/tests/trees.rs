//! The tree check.

use generate::example::{description_s, tree_of, TABLE_1};
use generate::{context, tree, well_formed, Rng, Size, NONE};
use reference::{ask, clash, tree_check, Clash, Description, Refusal, Verdict};

type Node = (u8, u8, u16);

fn nodes(tree: &[u8]) -> Vec<Node> {
    let node = |n: &[u8]| (n[0], n[1], u16::from_le_bytes([n[2], n[3]]));
    tree[2..].chunks(4).map(node).collect()
}

fn checked(table: u32, nodes: &[Node]) -> Result<Verdict, Refusal> {
    tree_check(&description_s(), table, &tree_of(nodes))
}

fn bad(node: u16) -> Result<Verdict, Refusal> {
    Err(Refusal::BadTree { node })
}

#[test]
fn table_0_of_s() {
    assert_eq!(checked(0, &[(0, 0, 0)]), Ok(Verdict::Accepted));
    let none = checked(0, &[(0, 0, NONE)]).unwrap();
    assert!(matches!(none, Verdict::Rejected { node: 0, .. }));
}

#[test]
fn table_1_of_s() {
    let mut nodes = TABLE_1;
    assert_eq!(nodes.len(), 19);
    assert_eq!(checked(1, &nodes), Ok(Verdict::Accepted));
    nodes[13].2 = 1;
    let Ok(Verdict::Rejected { node, bytes, .. }) = checked(1, &nodes) else {
        panic!("the leaf for 1F is wrong");
    };
    assert_eq!((node, bytes[0]), (13, 0x1f));
}

#[test]
fn counts_and_lengths() {
    let d = description_s();
    let tree = tree_of(&[(0, 0, 0)]);
    for wrong in [&[][..], &[1], &[0, 0], &tree[..5], &[0, 0, 0, 0, 0, 0]] {
        assert_eq!(tree_check(&d, 0, wrong), bad(NONE));
    }
    assert_eq!(tree_check(&d, 0, &[&tree[..], &[0]].concat()), bad(NONE));
    assert_eq!(checked(0, &[(0, 0, 0); 4096]), bad(NONE));
    assert_eq!(tree_check(&d, 9, &[]), Err(Refusal::NoTable { table: 9 }));
}

#[test]
fn bad_nodes() {
    assert_eq!(checked(0, &[(3, 0, 0)]), bad(0));
    assert_eq!(checked(0, &[(0, 1, 0)]), bad(0));
    assert_eq!(checked(0, &[(0, 0, 1)]), bad(0));
    assert_eq!(checked(1, &[(0, 0, 4)]), bad(0));
    assert_eq!(checked(0, &[(1, 64, 2), (0, 0, 0), (0, 0, 0)]), bad(0));
    assert_eq!(checked(0, &[(2, 32, 2), (0, 0, 0), (0, 0, 0)]), bad(0));
    let twice = [(1, 5, 4), (1, 5, 3), (0, 0, 0), (0, 0, 0), (0, 0, 0)];
    assert_eq!(checked(0, &twice), bad(1));
    let other_bit = [(1, 5, 4), (2, 5, 3), (0, 0, 0), (0, 0, 0), (0, 0, 0)];
    assert_eq!(checked(0, &other_bit), Ok(Verdict::Accepted));
}

#[test]
fn order_of_faults() {
    // A bad node comes before running out and before left-over nodes.
    assert_eq!(checked(0, &[(1, 0, 9), (0, 7, 0)]), bad(1));
    assert_eq!(checked(0, &[(1, 0, 9), (0, 0, 0)]), bad(NONE));
    assert_eq!(checked(0, &[(0, 7, 0), (0, 0, 0)]), bad(0));
    assert_eq!(checked(0, &[(0, 0, 0), (9, 9, 9)]), bad(NONE));
    // The wrong one sides come last, the lowest node first.
    let sides = [(1, 0, 9), (1, 1, 9), (0, 0, 0), (0, 0, 0), (0, 0, 0)];
    assert_eq!(checked(0, &sides), bad(0));
    let inner = [(1, 0, 4), (1, 1, 9), (0, 0, 0), (0, 0, 0), (0, 0, 0)];
    assert_eq!(checked(0, &inner), bad(1));
}

/// The leaf that an input reaches.
fn reached(nodes: &[Node], bytes: u64, context: u32) -> usize {
    let mut at = 0;
    loop {
        let (kind, bit, place) = nodes[at];
        let one = match kind {
            0 => return at,
            1 => bytes >> bit & 1 == 1,
            _ => context >> bit & 1 == 1,
        };
        at = if one { usize::from(place) } else { at + 1 };
    }
}

fn proves_wrong(d: &Description, table: u32, place: u16, bytes: u64, context: u32) -> bool {
    match ask(d, table, context, &bytes.to_le_bytes()) {
        Ok(taken) => taken.constructor != usize::from(place),
        Err(Refusal::NoMatch { .. }) => place != NONE,
        Err(_) => true,
    }
}

/// No random input may prove a leaf wrong that the check passed over.
fn try_inputs(rng: &mut Rng, d: &Description, table: u32, nodes: &[Node], right_below: usize) {
    for _ in 0..20 {
        let pattern = rng.pick(&d.constructors).pattern;
        let bytes = pattern.byte_value | rng.word() & !pattern.byte_mask;
        let context = context(rng, d);
        let leaf = reached(nodes, bytes, context);
        if leaf < right_below {
            assert!(!proves_wrong(d, table, nodes[leaf].2, bytes, context));
        }
    }
}

/// What the check says holds for the tree; true if it accepts.
fn judge(rng: &mut Rng, d: &Description, table: u32, nodes: &[Node]) -> bool {
    match tree_check(d, table, &tree_of(nodes)).unwrap() {
        Verdict::Accepted => {
            try_inputs(rng, d, table, nodes, nodes.len());
            true
        }
        Verdict::Rejected {
            node,
            bytes,
            context,
        } => {
            let bytes = u64::from_le_bytes(bytes);
            assert_eq!(reached(nodes, bytes, context), node);
            assert!(proves_wrong(d, table, nodes[node].2, bytes, context));
            try_inputs(rng, d, table, nodes, node);
            false
        }
    }
}

#[test]
fn random_trees() {
    let rng = &mut Rng::new(5);
    let (mut accepted, mut rejected) = (0, 0);
    for _ in 0..400 {
        let d = well_formed(rng, Size::SMALL);
        let table = u32::from(rng.pick(&d.constructors).table);
        let Some(tree) = tree(rng, &d, table) else {
            continue;
        };
        let mut nodes = nodes(&tree);
        let clear = clash(&d, table).unwrap() == Clash::Clear;
        let accepts = judge(rng, &d, table, &nodes);
        assert!(accepts || !clear);
        accepted += usize::from(accepts);
        let leaf = rng.index_where(nodes.len(), |i| nodes[i].0 == 0).unwrap();
        nodes[leaf].2 = match rng.once_in(2) {
            true => NONE,
            false => rng.pick(&d.table(table).unwrap().collect::<Vec<_>>()) as u16,
        };
        rejected += usize::from(!judge(rng, &d, table, &nodes));
    }
    assert!(accepted > 100 && rejected > 100, "{accepted}, {rejected}");
}
