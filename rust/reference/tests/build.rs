//! Building trees, against the rule taken bit by bit.

use generate::example::{description_s, tree_of};
use generate::{
    bytes, deepest_full_table, deepest_table, instruction_set, largest_tree_table, meeting_tables,
    nested_table, one_table, subset_table, table_ranges, table_with_tests, Rng, LEAST_TESTS,
    NODE_LIMIT, NONE,
};
use reference::{
    build, check, clash, requests, tree_check, Clash, Description, Pattern, Refusal, Verdict,
};

fn of_bytes(byte_mask: u64, byte_value: u64) -> Pattern {
    Pattern {
        byte_mask,
        byte_value,
        ..Pattern::default()
    }
}

/// Nodes of the tree, which is accepted.
fn built(d: &Description, table: u32) -> Result<usize, Refusal> {
    let tree = build(d, table)?;
    assert_eq!(tree_check(d, table, &tree), Ok(Verdict::Accepted), "{d:?}");
    assert_eq!(tree.len() % 4, 2);
    Ok(tree.len() / 4)
}

#[test]
fn tables_of_s() {
    let d = description_s();
    assert_eq!(build(&d, 0), Ok(tree_of(&[(0, 0, 0)])));
    assert_eq!(built(&d, 1), Ok(79));
    assert_eq!(build(&d, 2), Err(Refusal::NoTable { table: 2 }));
}

#[test]
fn one_pattern() {
    let any = one_table(&[Pattern::default()]);
    assert_eq!(build(&any, 0), Ok(tree_of(&[(0, 0, 0)])));
    let two_bits = one_table(&[of_bytes(0x8001, 0x8000)]);
    let nodes = [(1, 0, 4), (1, 15, 3), (0, 0, NONE), (0, 0, 0), (0, 0, NONE)];
    assert_eq!(build(&two_bits, 0), Ok(tree_of(&nodes)));
}

/// The third of two that cross; a byte bit before a lower context bit.
#[test]
fn crossing_patterns() {
    let by_context = Pattern {
        context_mask: 1,
        context_value: 1,
        ..Pattern::default()
    };
    let crossing = [by_context, of_bytes(2, 0)];
    let both = by_context.overlap(&crossing[1]);
    let clear = one_table(&[crossing[0], both, crossing[1]]);
    let nodes = [
        (1, 1, 4),
        (2, 0, 3),
        (0, 0, 2),
        (0, 0, 1),
        (2, 0, 6),
        (0, 0, NONE),
        (0, 0, 0),
    ];
    assert_eq!(build(&clear, 0), Ok(tree_of(&nodes)));
    let clashing = one_table(&crossing);
    assert_eq!(build(&clashing, 0), Err(Refusal::Clashing(0, 1)));
}

/// A general pattern decides where no special one is live.
#[test]
fn a_leaf_before_all_bits() {
    let d = one_table(&[of_bytes(7, 5), Pattern::default(), of_bytes(1, 1)]);
    let nodes = [
        (1, 0, 2),
        (0, 0, 1),
        (1, 1, 6),
        (1, 2, 5),
        (0, 0, 2),
        (0, 0, 0),
        (0, 0, 2),
    ];
    assert_eq!(build(&d, 0), Ok(tree_of(&nodes)));
}

/// The asked table's clash alone counts, and its records have their numbers in
/// the description.
#[test]
fn a_clash() {
    let mut d = description_s();
    d.constructors[2].pattern = of_bytes(0x0f, 0x01);
    assert_eq!(build(&d, 1), Err(Refusal::Clashing(1, 2)));
    assert_eq!(built(&d, 0), Ok(1));
    let (number, values) = requests::build(&bytes(&d), 1, &mut []).number_and_values();
    assert_eq!((number, values), (15, [1, 2, 0, 0]));
}

#[test]
fn the_most_nodes() {
    let rng = &mut Rng::new(1);
    assert_eq!(built(&largest_tree_table(), 0), Ok(NODE_LIMIT));
    for tests in [LEAST_TESTS, 1000, NODE_LIMIT / 2] {
        assert_eq!(built(&table_with_tests(rng, tests), 0), Ok(2 * tests + 1));
    }
    for tests in [NODE_LIMIT / 2 + 1, 3000] {
        let d = table_with_tests(rng, tests);
        assert_eq!(built(&d, 0), Err(Refusal::TreeTooLarge));
    }
    assert_eq!(built(&nested_table(rng), 0), Err(Refusal::TreeTooLarge));
}

#[test]
fn deep_paths() {
    let rng = &mut Rng::new(2);
    assert_eq!(built(&deepest_table(rng), 0), Ok(2 * 96 + 1));
    let full = built(&deepest_full_table(rng), 0);
    assert_eq!(full, Ok(2 * (96 - 9) + 1023));
}

#[test]
fn avr() {
    let d = check(&avr::description()).unwrap();
    for table in 0..d.root() {
        assert!(built(&d, table).is_ok());
    }
    assert_eq!(build(&d, d.root()), Err(Refusal::TreeTooLarge));
    let nodes = nodes_by_the_rule(&d, d.root(), usize::MAX).unwrap();
    assert_eq!(nodes.len(), 31_743);
}

#[test]
fn lent_bytes() {
    let s = bytes(&description_s());
    let tree = build(&description_s(), 1).unwrap();
    let size = tree.len();
    assert_eq!(size, 318);
    for length in [0, 1, 2, size - 1, size, size + 1, 16_382] {
        let mut lent: Vec<u8> = (0..length).map(|i| i as u8).collect();
        let before = lent.clone();
        let answer = requests::build(&s, 1, &mut lent).number_and_values();
        if length < size {
            assert_eq!((answer, lent), ((16, [0; 4]), before));
            continue;
        }
        assert_eq!(answer, (0, [size as u64, 0, 0, 0]));
        assert_eq!((&lent[..size], &lent[size..]), (&tree[..], &before[size..]));
    }
}

/// 1, 12, 15, 16.
#[test]
fn the_order_of_refusals() {
    let mut d = description_s();
    d.constructors[2].pattern = of_bytes(0x0f, 0x01);
    let clashing = bytes(&d);
    let answer = |description: &[u8], table| {
        let answer = requests::build(description, table, &mut []);
        answer.number_and_values()
    };
    let cut = &clashing[..215];
    assert_eq!(answer(cut, 2), (1, [6, 65_535, 0, 0]));
    assert_eq!(answer(cut, 1), (1, [6, 65_535, 0, 0]));
    assert_eq!(answer(&clashing, 2), (12, [2, 0, 0, 0]));
    assert_eq!(answer(&clashing, 257), (12, [257, 0, 0, 0]));
    assert_eq!(answer(&clashing, 1), (15, [1, 2, 0, 0]));
    assert_eq!(answer(&clashing, 0), (16, [0; 4]));
}

/// A bit, context bits from 64 on, and its value.
type Bits = Vec<(u8, bool)>;

fn masked_bits(p: &Pattern) -> Bits {
    let bytes = (0..64).filter(|bit| p.byte_mask >> bit & 1 == 1);
    let context = (0..32).filter(|bit| p.context_mask >> bit & 1 == 1);
    bytes
        .map(|bit| (bit, p.byte_value >> bit & 1 == 1))
        .chain(context.map(|bit| (64 + bit, p.context_value >> bit & 1 == 1)))
        .collect()
}

/// Kind, bit and place of each node.
type Nodes = Vec<(u8, u8, u16)>;

/// The tree's nodes, if they are no more than these.
fn nodes_by_the_rule(d: &Description, table: u32, most: usize) -> Option<Nodes> {
    let of_table = |&i: &usize| u32::from(d.constructors[i].table) == table;
    let records = (0..d.constructors.len()).filter(of_table);
    let bits = |i: usize| (i as u16, masked_bits(&d.constructors[i].pattern));
    let patterns: Vec<(u16, Bits)> = records.map(bits).collect();
    let mut nodes = Vec::new();
    add_nodes(&mut vec![], &patterns, &mut nodes, most)?;
    Some(nodes)
}

/// Adds those behind a path.
fn add_nodes(
    path: &mut Bits,
    patterns: &[(u16, Bits)],
    nodes: &mut Nodes,
    most: usize,
) -> Option<()> {
    let test = nodes.len();
    if test == most {
        return None;
    }
    let agrees = |bits: &Bits| bits.iter().all(|&(bit, one)| !path.contains(&(bit, !one)));
    let live: Vec<&(u16, Bits)> = patterns.iter().filter(|(_, bits)| agrees(bits)).collect();
    let inside = |a: &Bits, b: &Bits| b.iter().all(|bit| a.contains(bit));
    let decides = |&&(_, bits): &&&(u16, Bits)| {
        inside(path, bits) && live.iter().all(|(_, other)| inside(bits, other))
    };
    let leaf = match live[..] {
        [] => Some(NONE),
        _ => live.iter().find(decides).map(|&&(record, _)| record),
    };
    if let Some(place) = leaf {
        nodes.push((0, 0, place));
        return Some(());
    }
    let on_path = |bit| path.contains(&(bit, false)) || path.contains(&(bit, true));
    let masked = live.iter().flat_map(|(_, bits)| bits).map(|&(bit, _)| bit);
    let bit = masked.filter(|&bit| !on_path(bit)).min().unwrap();
    nodes.push(match bit {
        0..64 => (1, bit, 0),
        _ => (2, bit - 64, 0),
    });
    for one in [false, true] {
        if one {
            nodes[test].2 = nodes.len() as u16;
        }
        path.push((bit, one));
        add_nodes(path, patterns, nodes, most)?;
        path.pop();
    }
    Some(())
}

/// Builds by both ways; the answer's number.
fn compared(d: &Description, table: u32) -> u32 {
    let by_the_rule = match clash(d, table).unwrap() {
        Clash::Pair(i, j) => Err(Refusal::Clashing(i, j)),
        Clash::Clear => nodes_by_the_rule(d, table, NODE_LIMIT).ok_or(Refusal::TreeTooLarge),
    };
    let expected = by_the_rule.map(|nodes| tree_of(&nodes));
    assert_eq!(build(d, table), expected, "{d:?}");
    built(d, table).map_or_else(|refusal| refusal.number_and_values().0, |_| 0)
}

#[test]
fn tables_of_patterns_that_meet() {
    let rng = &mut Rng::new(3);
    let mut answers = [0; 17];
    for most in [1, 3, 8, 20].repeat(100) {
        let d = meeting_tables(rng, most);
        for range in table_ranges(&d) {
            let table = d.constructors[range.start].table.into();
            answers[compared(&d, table) as usize] += 1;
        }
    }
    assert!(answers[0] > 200 && answers[15] > 100, "{answers:?}");
}

#[test]
fn large_tables() {
    let rng = &mut Rng::new(4);
    assert_eq!(compared(&instruction_set(200), 0), 0);
    assert_eq!(compared(&subset_table(rng), 0), 0);
    assert_eq!(compared(&table_with_tests(rng, 1500), 0), 0);
    assert_eq!(compared(&table_with_tests(rng, 2048), 0), 16);
}
