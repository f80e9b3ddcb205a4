//! The tree check.

use generate::example::description_s;
use generate::{
    all_bits, any_node, any_place, bytes, changed_tables, deep_tree, grow, instruction_set,
    largest_tree, meeting_tables, prune, random_tree, repeated, replace, small_tree, table_ranges,
    tree_bytes, tree_count_faults, tree_nodes, well_formed, Node, Records, Rng, Shape, Size,
    NODE_LIMIT, NONE, TREE_RULES, WHOLE_TREE,
};
use reference::{clash, requests, Clash, Description, Verdict};

use crate::agreed::{agreed, hex};
use crate::tally::Tally;
use crate::wrong_leaf::{few_bits, first_wrong_leaf, nodes_of, proves_wrong};

const COLUMNS: &[&str] = &[
    "accepted",
    "rejected",
    "malformed",
    "bad node",
    "bad tree",
    "no table",
];
const EXHAUSTED: &[&str] = &["accepted", "rejected"];

/// Compares the check on every kind of table and tree.
pub fn compare(rng: &mut Rng) {
    let mut trees = Trees {
        rng,
        tally: Tally::new(COLUMNS),
        exhausted: Tally::new(EXHAUSTED),
        kind: "",
    };
    trees.changes_of_s();
    trees.meeting();
    trees.well_formed();
    trees.larger();
    trees.deep();
    trees.limits();
    trees.broken_rules();
    trees.wrong_counts();
    trees.several_broken_rules();
    trees.several_one_sides();
    trees.random_nodes();
    trees.absent_tables();
    trees.malformed();
    print!("{}", trees.tally);
    print!("verdicts tried on every input:\n{}", trees.exhausted);
}

/// A table with its description.
struct Table<'a> {
    description: &'a Description,
    bytes: &'a [u8],
    number: u32,
    records: Records,
    clear: bool,
}

struct Trees<'a> {
    rng: &'a mut Rng,
    tally: Tally,
    /// Verdicts that were found again by trying every input.
    exhausted: Tally,
    kind: &'static str,
}

/// Runs a function on each table of a description.
fn each_table(d: &Description, mut run: impl FnMut(&Table)) {
    let bytes = bytes(d);
    for range in table_ranges(d) {
        let number = d.constructors[range.start].table.into();
        run(&Table {
            description: d,
            bytes: &bytes,
            number,
            records: Records {
                of_table: range,
                all: d.constructors.len(),
            },
            clear: clash(d, number) == Ok(Clash::Clear),
        });
    }
}

fn bad_node(node: u16) -> (u32, [u64; 4]) {
    (11, [node.into(), 0, 0, 0])
}

/// The reference's answer with the library's counterexample in place of its
/// own: it may be any that proves the named leaf wrong.
fn with_counterexample(
    expected: reference::Answer,
    answer: dookerand::Answer,
    proves_wrong: impl FnOnce(usize, u64, u32) -> bool,
) -> reference::Answer {
    let reference::Answer::Tree(Verdict::Rejected { node, .. }) = expected else {
        return expected;
    };
    let [_, _, bytes, context] = answer.values;
    match u32::try_from(context) {
        Ok(context) if proves_wrong(node, bytes, context) => {
            reference::Answer::Tree(Verdict::Rejected {
                node,
                bytes: bytes.to_le_bytes(),
                context,
            })
        }
        _ => expected,
    }
}

impl Trees<'_> {
    /// Compares one tree as bytes.
    fn bytes(&mut self, description: &[u8], table: u32, tree: &[u8]) -> (u32, [u64; 4]) {
        let expected = requests::tree(description, table, tree);
        let answer = dookerand::tree(description, table, tree);
        let allowed = with_counterexample(expected, answer, |leaf, bytes, context| {
            let d = reference::check(description).expect("the tree was judged");
            proves_wrong(&d, table, &nodes_of(tree), leaf, bytes, context)
        });
        let request = || format!("table {table}, tree {}", hex(tree));
        let (number, values) = agreed(self.kind, request, description, &allowed, answer);
        self.count(number, values[0]);
        (number, values)
    }

    fn count(&mut self, number: u32, first: u64) {
        let column = match number {
            0 => first as usize,
            1 => 2,
            11 if first == WHOLE_TREE.into() => 4,
            11 => 3,
            _ => 5,
        };
        self.tally.count(self.kind, column);
    }

    /// Compares one tree of a table.
    fn nodes(&mut self, table: &Table, nodes: &[Node]) -> (u32, [u64; 4]) {
        let (number, values) = self.bytes(table.bytes, table.number, &tree_bytes(nodes));
        if number == 0 {
            self.exhaust(table, nodes, (values[0] == 1).then_some(values[1] as usize));
        }
        (number, values)
    }

    /// Finds the verdict again without any rule about patterns, if that
    /// doesn't take too long.
    fn exhaust(&mut self, table: &Table, nodes: &[Node], wrong_leaf: Option<usize>) {
        let (d, number) = (table.description, table.number);
        let Some(bits) = few_bits(d, &table.records.of_table, nodes) else {
            return;
        };
        // About as long for all trees of many bits as for those of few.
        if self.rng.once_in(1 << bits.count().saturating_sub(9)) {
            let found = first_wrong_leaf(d, number, nodes, bits);
            assert_eq!(found, wrong_leaf, "the reference on {nodes:?} of {d:?}");
            self.exhausted
                .count(self.kind, usize::from(found.is_some()));
        }
    }

    /// Compares one tree of which the bad node is known.
    fn known(&mut self, table: &Table, nodes: &[Node], bad: u16, name: &str) {
        let answer = self.nodes(table, nodes);
        assert_eq!(answer, bad_node(bad), "the reference on \"{name}\"");
    }

    /// A right tree if the table is clear; nothing if it is too large.
    fn right(&mut self, table: &Table) -> Option<Vec<Node>> {
        let nodes = tree_nodes(self.rng, table.description, table.number)?;
        let (number, values) = self.nodes(table, &nodes);
        assert_eq!(number, 0, "the reference on a well-formed tree");
        assert!(!table.clear || values[0] == 0, "the reference: {nodes:?}");
        Some(nodes)
    }

    /// Changes a leaf to another constructor, to none or to an equal one.
    fn change_leaf(&mut self, table: &Table, nodes: &mut [Node]) {
        let leaf = self.rng.index_where(nodes.len(), |i| nodes[i].is_leaf());
        let leaf = &mut nodes[leaf.expect("a tree has a leaf")];
        leaf.place = match (self.rng.below(3), self.equal(table, leaf.place)) {
            (0, _) => NONE,
            (1, Some(equal)) => equal,
            _ => any_place(self.rng, &table.records.of_table),
        };
    }

    /// Another constructor of the table with the same pattern.
    fn equal(&mut self, table: &Table, place: u16) -> Option<u16> {
        let place = usize::from(place);
        let constructors = &table.description.constructors;
        let named = constructors.get(place)?.pattern;
        let of_table = &table.records.of_table;
        let other = self.rng.index_where(constructors.len(), |i| {
            i != place && of_table.contains(&i) && constructors[i].pattern == named
        });
        other.map(|other| other as u16)
    }

    /// A right tree, with leaves changed, and in other shapes.
    fn table(&mut self, table: &Table, [right, leaves, shapes]: [&'static str; 3]) {
        self.kind = right;
        let Some(nodes) = self.right(table) else {
            return;
        };
        self.kind = leaves;
        let mut changed = nodes.clone();
        for _ in 0..3 {
            let mut one = nodes.clone();
            self.change_leaf(table, &mut one);
            self.nodes(table, &one);
            // More and more wrong leaves; the first is named.
            self.change_leaf(table, &mut changed);
            self.nodes(table, &changed);
        }
        self.kind = shapes;
        self.reshaped(table, &nodes);
    }

    /// Tests that decide nothing, and tests left out.
    fn reshaped(&mut self, table: &Table, nodes: &[Node]) {
        let mut grown = nodes.to_vec();
        for _ in 0..self.rng.within(1..=3) {
            if grown.len() + 2 <= NODE_LIMIT {
                grow(self.rng, &mut grown);
            }
        }
        self.nodes(table, &grown);
        self.change_leaf(table, &mut grown);
        self.nodes(table, &grown);
        prune(self.rng, &mut grown);
        self.nodes(table, &grown);
        let mut pruned = nodes.to_vec();
        prune(self.rng, &mut pruned);
        self.nodes(table, &pruned);
    }

    fn random_trees(&mut self, table: &Table, count: usize) {
        for _ in 0..count {
            let records = table.records.of_table.clone();
            let shape = Shape::few(self.rng, table.description, records);
            self.random(table, &shape);
        }
    }

    fn random(&mut self, table: &Table, shape: &Shape) {
        let nodes = random_tree(self.rng, table.description, table.number, shape);
        self.nodes(table, &nodes);
    }

    /// Every byte of S's trees changed to every other, and every cut.
    fn changes_of_s(&mut self) {
        let d = description_s();
        each_table(&d, |table| {
            let nodes = small_tree(&d, table.number).expect("S is small");
            let tree = tree_bytes(&nodes);
            self.kind = "S, a byte changed";
            for at in 2..tree.len() {
                for byte in 0..=255 {
                    let mut changed = tree.clone();
                    changed[at] = byte;
                    self.nodes(table, &nodes_of(&changed));
                }
            }
            self.kind = "S, cuts";
            for cut in 0..tree.len() {
                self.bytes(table.bytes, table.number, &tree[..cut]);
            }
        });
    }

    /// Runs a function on each table of so many descriptions.
    fn each(&mut self, descriptions: usize, most: usize, run: impl Fn(&mut Self, &Table)) {
        for _ in 0..descriptions {
            let d = meeting_tables(self.rng, most);
            each_table(&d, |table| run(self, table));
        }
    }

    fn meeting(&mut self) {
        for most in [3, 8] {
            self.each(2_500, most, |trees, table| {
                trees.table(table, ["right", "leaves changed", "other shapes"]);
                trees.kind = "random, few bits";
                trees.random_trees(table, 3);
            });
        }
    }

    fn well_formed(&mut self) {
        for i in 0..1_000 {
            let size = [Size::SMALL, Size::SMALL, Size::SMALL, Size::MIDDLE][i % 4];
            let d = well_formed(self.rng, size);
            each_table(&d, |table| {
                self.table(table, ["random descriptions"; 3]);
                self.random_trees(table, 1);
            });
        }
    }

    fn larger(&mut self) {
        for (descriptions, most) in [(200, 40), (20, 512)] {
            self.each(descriptions, most, |trees, table| {
                trees.table(table, ["larger tables"; 3]);
                trees.random_trees(table, 2);
            });
        }
    }

    /// Every bit tested on one path, and one of them once more.
    fn deep(&mut self) {
        self.kind = "deep";
        self.each(300, 8, |trees, table| {
            let deep = deep_tree(trees.rng, table.description, table.number);
            if let Some((nodes, leaf)) = deep {
                trees.deepest(table, nodes, leaf);
            }
        });
        let chain = Shape {
            bits: all_bits(),
            tests: all_bits().len(),
            chain: true,
        };
        self.each(150, 8, |trees, table| trees.random(table, &chain));
    }

    fn deepest(&mut self, table: &Table, mut nodes: Vec<Node>, leaf: usize) {
        self.nodes(table, &nodes);
        self.change_leaf(table, &mut nodes);
        self.nodes(table, &nodes);
        let bit = self.rng.pick(&all_bits());
        let twice = [Node::test(bit, 2), nodes[leaf], nodes[leaf]];
        replace(&mut nodes, leaf..leaf + 1, &twice);
        self.known(table, &nodes, leaf as u16, "deep");
    }

    /// The most nodes, and more.
    fn limits(&mut self) {
        self.kind = "4,095 nodes and more";
        self.each(6, 8, Self::limit);
        each_table(&instruction_set(512), |table| self.limit(table));
    }

    fn limit(&mut self, table: &Table) {
        let largest = largest_tree(self.rng, table.description, table.number);
        let Some(mut nodes) = largest else {
            return;
        };
        let (_, values) = self.nodes(table, &nodes);
        assert!(!table.clear || values[0] == 0, "the reference: {nodes:?}");
        self.change_leaf(table, &mut nodes);
        self.nodes(table, &nodes);
        self.past_limit(table, nodes);
        let random = Shape {
            bits: all_bits(),
            tests: NODE_LIMIT / 2,
            chain: false,
        };
        self.random(table, &random);
    }

    /// Two nodes more, and nothing else wrong; then a bad node, which is not
    /// the fault that is named.
    fn past_limit(&mut self, table: &Table, mut nodes: Vec<Node>) {
        while nodes.len() <= NODE_LIMIT {
            grow(self.rng, &mut nodes);
        }
        self.known(table, &nodes, WHOLE_TREE, self.kind);
        nodes[0].kind = 3;
        for count in [4096, 4097, 8192, 65_535] {
            let tree = repeated(&nodes, count);
            let answer = self.bytes(table.bytes, table.number, &tree);
            assert_eq!(answer, bad_node(WHOLE_TREE), "the reference");
        }
    }

    /// Some well-formed trees of a table.
    fn bases(&mut self, table: &Table) -> Vec<Vec<Node>> {
        let records = table.records.of_table.clone();
        let shape = Shape::few(self.rng, table.description, records);
        let random = random_tree(self.rng, table.description, table.number, &shape);
        let right = tree_nodes(self.rng, table.description, table.number);
        right.into_iter().chain([random]).collect()
    }

    fn broken_rules(&mut self) {
        self.each(500, 3, |trees, table| {
            for base in trees.bases(table) {
                trees.break_each_rule(table, &base);
            }
        });
    }

    fn break_each_rule(&mut self, table: &Table, base: &[Node]) {
        for &(name, break_rule) in TREE_RULES {
            self.kind = name;
            let mut nodes = base.to_vec();
            if let Some(bad) = break_rule(&mut nodes, &table.records, self.rng) {
                self.known(table, &nodes, bad, name);
            }
        }
    }

    fn break_rules(&mut self, table: &Table, base: &[Node], count: usize) -> Vec<Node> {
        let mut nodes = base.to_vec();
        for _ in 0..count {
            let (_, break_rule) = self.rng.pick(TREE_RULES);
            break_rule(&mut nodes, &table.records, self.rng);
        }
        nodes
    }

    /// The count comes before the nodes, bad ones too.
    fn wrong_counts(&mut self) {
        self.kind = "count or length wrong";
        self.each(200, 3, |trees, table| {
            for base in trees.bases(table) {
                let broken = trees.rng.below(2);
                let nodes = trees.break_rules(table, &base, broken);
                for tree in tree_count_faults(&nodes, trees.rng) {
                    let answer = trees.bytes(table.bytes, table.number, &tree);
                    assert_eq!(answer, bad_node(WHOLE_TREE), "the reference");
                }
            }
        });
    }

    /// The order of faults decides which is named.
    fn several_broken_rules(&mut self) {
        self.kind = "several rules broken";
        self.each(1_000, 3, |trees, table| {
            for base in trees.bases(table) {
                for count in [2, 2, 2, 3, 4] {
                    let nodes = trees.break_rules(table, &base, count);
                    trees.nodes(table, &nodes);
                }
            }
        });
    }

    /// The lowest node is named.
    fn several_one_sides(&mut self) {
        self.kind = "several one sides wrong";
        self.each(500, 8, |trees, table| {
            for mut nodes in trees.bases(table) {
                for _ in 0..trees.rng.within(2..=4) {
                    trees.change_one_side(&mut nodes);
                }
                trees.nodes(table, &nodes);
            }
        });
    }

    fn change_one_side(&mut self, nodes: &mut [Node]) {
        let test = self.rng.index_where(nodes.len(), |i| !nodes[i].is_leaf());
        if let Some(test) = test {
            nodes[test].place ^= 1 << self.rng.below(4);
        }
    }

    fn random_nodes(&mut self) {
        self.kind = "random nodes";
        self.each(1_500, 3, |trees, table| {
            for _ in 0..3 {
                let count = trees.rng.within(1..=7);
                let nodes: Vec<Node> = (0..count).map(|_| any_node(trees.rng)).collect();
                trees.nodes(table, &nodes);
            }
        });
    }

    /// A tree that is not well formed comes after an absent table.
    fn any_tree(&mut self, d: &Description) -> Vec<u8> {
        let table = self.rng.pick(&d.constructors).table.into();
        let tree = tree_nodes(self.rng, d, table).map(|nodes| tree_bytes(&nodes));
        match (self.rng.below(3), tree) {
            (0, _) => vec![],
            (1, Some(tree)) => [&tree[..], &[0]].concat(),
            (_, tree) => tree.unwrap_or_default(),
        }
    }

    fn absent_tables(&mut self) {
        self.kind = "no such table";
        for _ in 0..500 {
            let d = meeting_tables(self.rng, 3);
            let description = bytes(&d);
            let root = d.root();
            let any = self.rng.below(64) as u32;
            for table in [any, root + 1, 64, 256 + root, 65_536 + root, u32::MAX] {
                if d.table(table).is_none() {
                    let tree = self.any_tree(&d);
                    self.bytes(&description, table, &tree);
                }
            }
        }
    }

    /// The description's fault comes before all else.
    fn malformed(&mut self) {
        self.kind = "description malformed";
        for (d, changed) in changed_tables(self.rng, 40) {
            self.changed_description(&d, &changed);
        }
    }

    /// A tree of the description before the change, for a table that it had
    /// and for one of any number.
    fn changed_description(&mut self, before: &Description, changed: &[u8]) {
        let present = self.rng.pick(&before.constructors).table;
        let any = self.rng.below(300) as u32;
        let tree = self.any_tree(before);
        for table in [present.into(), any] {
            self.bytes(changed, table, &tree);
        }
    }
}
