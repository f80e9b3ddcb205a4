//! Proposed trees: the reference's tree check accepts them, and they are small.

use generate::example::description_s;
use generate::{
    bytes, deepest_full_table, deepest_table, format_table, instruction_set, largest_tree_table,
    meeting_tables, nested_instruction_set, nested_table, opcode_table, subset_table, table_ranges,
    table_with_tests, Rng, NODE_LIMIT,
};
use proposer::{depth, nodes, propose};
use reference::{build, check, clash, tree_check, Clash, Description, Fault, Refusal, Verdict};

/// The proposed tree, which is accepted.
fn proposed(d: &Description, table: u32) -> Result<Vec<u8>, Refusal> {
    let tree = propose(&bytes(d), table)?;
    assert_eq!(tree_check(d, table, &tree), Ok(Verdict::Accepted), "{d:?}");
    Ok(tree)
}

/// Nodes by the rule of `build`, if they are not too many, and of the proposed
/// tree.
fn sizes(d: &Description, table: u32) -> (Option<usize>, usize) {
    let built = build(d, table).ok();
    let proposed = proposed(d, table).unwrap();
    (built.map(|tree| nodes(&tree)), nodes(&proposed))
}

#[test]
fn s() {
    let d = description_s();
    assert_eq!(sizes(&d, 0), (Some(1), 1));
    assert_eq!(sizes(&d, 1), (Some(79), 19));
    assert_eq!(depth(&proposed(&d, 0).unwrap()), 0);
    assert_eq!(depth(&proposed(&d, 1).unwrap()), 8);
}

#[test]
fn avr() {
    let d = check(&avr::description()).unwrap();
    for table in 0..d.root() {
        let (built, proposed) = sizes(&d, table);
        assert_eq!(built, Some(proposed), "no order of bits is better here");
    }
    assert_eq!(sizes(&d, d.root()), (None, 279));
}

/// As many constructors as may be.
#[test]
fn tables_of_512() {
    let rng = &mut Rng::new(1);
    assert_eq!(sizes(&instruction_set(512), 0), (Some(3875), 1315));
    assert_eq!(sizes(&nested_instruction_set(512), 2), (Some(3875), 1303));
    assert_eq!(sizes(&largest_tree_table(), 0), (Some(4095), 1027));
    assert_eq!(sizes(&subset_table(rng), 0), (Some(1023), 1023));
    assert_eq!(sizes(&nested_table(rng), 0), (None, 1023));
    assert_eq!(sizes(&deepest_full_table(rng), 0), (Some(1197), 1197));
    for _ in 0..10 {
        assert_eq!(sizes(&format_table(rng), 0).0, None);
        for twelve in [0xfff, 0x0f0f_0f00, 0x7007_7000_0070_0000] {
            sizes(&opcode_table(rng, twelve, 512), 0);
        }
        for thirteen in [0x1fff, 0x1f0f_0f00, 0x7007_7000_0070_0001] {
            sizes(&opcode_table(rng, thirteen, 512), 0);
        }
    }
}

/// All bits on a path.
#[test]
fn deep() {
    let rng = &mut Rng::new(2);
    for d in [deepest_table(rng), deepest_full_table(rng)] {
        assert_eq!(depth(&proposed(&d, 0).unwrap()), 96);
    }
}

/// Tables whose patterns meet in every way.
#[test]
fn random_tables() {
    let rng = &mut Rng::new(3);
    let (mut smaller, mut larger) = (0, 0);
    for most in [3, 8, 8, 40].repeat(100) {
        let d = meeting_tables(rng, most);
        for range in table_ranges(&d) {
            let table = d.constructors[range.start].table.into();
            if let Clash::Pair(i, j) = clash(&d, table).unwrap() {
                assert_eq!(proposed(&d, table), Err(Refusal::Clashing(i, j)));
                continue;
            }
            let (built, proposed) = sizes(&d, table);
            smaller += usize::from(built.is_none_or(|built| proposed < built));
            larger += usize::from(built.is_some_and(|built| proposed > built));
        }
    }
    assert!(smaller > 100 && larger < 5, "{smaller} {larger}");
}

#[test]
fn refused() {
    let rng = &mut Rng::new(4);
    let s = bytes(&description_s());
    let fault = Fault {
        section: 6,
        record: 65_535,
    };
    assert_eq!(propose(&s[..215], 1), Err(Refusal::Malformed(fault)));
    assert_eq!(propose(&s, 2), Err(Refusal::NoTable { table: 2 }));
    // Every order of bits takes as many tests here: 4,095 nodes, and two more.
    let most = table_with_tests(rng, NODE_LIMIT / 2);
    assert_eq!(nodes(&proposed(&most, 0).unwrap()), NODE_LIMIT);
    let above = table_with_tests(rng, NODE_LIMIT / 2 + 1);
    assert_eq!(proposed(&above, 0), Err(Refusal::TreeTooLarge));
    let far_above = opcode_table(rng, u64::MAX, 512);
    assert_eq!(proposed(&far_above, 0), Err(Refusal::TreeTooLarge));
}
