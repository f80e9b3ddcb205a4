//! Building trees, and what the proved check says of proposed ones.

use dookerand::{Answer, TREE};
use generate::example::{description_s, full_featured};
use generate::{
    bytes, changed_tables, deepest_full_table, deepest_table, format_table, instruction_set,
    largest_tree_table, longest, meeting_tables, nested_instruction_set, nested_table,
    opcode_table, subset_table, table_ranges, table_with_tests, well_formed, Rng, Size,
    LEAST_TESTS, NODE_LIMIT,
};
use reference::{requests, Description};

use crate::agreed::{differ, hex};
use crate::lent::agreed_on_lent;
use crate::tally::Tally;

const COLUMNS: &[&str] = &[
    "built",
    "malformed",
    "no table",
    "clash",
    "no room",
    "too large",
];

/// Tests in the largest tree.
const MOST_TESTS: usize = NODE_LIMIT / 2;

/// Compares on every kind of table and number of lent bytes.
pub fn compare(rng: &mut Rng) {
    let mut building = Building {
        rng,
        tally: Tally::new(COLUMNS),
        proposed: 0,
        kind: "",
    };
    building.fixed();
    building.every_room();
    building.meeting();
    building.well_formed();
    building.deep();
    building.limits();
    building.full();
    building.absent_tables();
    building.malformed();
    building.tally.at_least(100);
    print!("{}", building.tally);
    println!("proposed trees, all accepted: {}", building.proposed);
}

struct Building<'a> {
    rng: &'a mut Rng,
    tally: Tally,
    proposed: usize,
    kind: &'static str,
}

impl Building<'_> {
    /// Compares with so many bytes lent; the tree, if there is one.
    fn one(&mut self, description: &[u8], table: u32, lent: usize) -> Option<Vec<u8>> {
        // A tree may have any byte, so what was there before is not always the
        // same.
        let (first, step) = (self.rng.below(256), 1 + 2 * self.rng.below(128));
        let before = |place: usize| (first + step * place) as u8;
        let (number, values, mut tree) = agreed_on_lent(
            self.kind,
            || format!("build of table {table}, {lent} lent"),
            description,
            (lent, before),
            |tree| requests::build(description, table, tree),
            |tree| dookerand::build(description, table, tree),
        );
        self.count(number, lent);
        tree.truncate(values[0] as usize);
        (number == 0).then_some(tree)
    }

    fn count(&mut self, number: u32, lent: usize) {
        let column = match number {
            0 => 0,
            1 => 1,
            12 => 2,
            15 => 3,
            _ if lent < TREE => 4,
            _ => 5,
        };
        self.tally.count(self.kind, column);
    }

    /// Stops unless the proved check accepts the tree.
    fn accepted(&self, description: &[u8], table: u32, tree: &[u8]) {
        let accepted = Answer {
            number: 0,
            values: [0; 4],
        };
        let answer = dookerand::tree(description, table, tree);
        if answer != accepted {
            let request = format!("check of table {table}, tree {}", hex(tree));
            let [expected, found] = [accepted, answer].map(|answer| format!("{answer:?}"));
            differ(self.kind, &request, description, &expected, &found);
        }
    }

    /// With room for any tree, with one byte too few, just enough and more, and
    /// with next to nothing.
    fn table(&mut self, description: &[u8], table: u32) {
        let tree = self.one(description, table, TREE);
        if let Some(tree) = &tree {
            self.accepted(description, table, tree);
        }
        let size = match tree {
            Some(tree) => tree.len(),
            None => self.rng.within(3..=TREE),
        };
        let longer = size + self.rng.within(2..=40);
        for lent in [0, 1, 2, size - 1, size, size + 1, longer, TREE + longer] {
            self.one(description, table, lent);
        }
    }

    fn tables(&mut self, d: &Description) {
        let description = bytes(d);
        for range in table_ranges(d) {
            let table = d.constructors[range.start].table.into();
            self.table(&description, table);
        }
    }

    /// What is proposed for these tables.
    fn propose(&mut self, d: &Description) {
        let description = bytes(d);
        for range in table_ranges(d) {
            let table = d.constructors[range.start].table.into();
            if let Ok(tree) = proposer::propose(&description, table) {
                self.accepted(&description, table, &tree);
                self.proposed += 1;
            }
        }
    }

    fn fixed(&mut self) {
        self.kind = "fixed descriptions";
        let avr = reference::check(&avr::description()).expect("it is well formed");
        for d in [description_s(), full_featured(), avr, longest()] {
            self.tables(&d);
            self.propose(&d);
        }
    }

    /// Every number of lent bytes up to more than enough.
    fn every_room(&mut self) {
        self.kind = "every room";
        let s = bytes(&description_s());
        for table in 0..=1 {
            for lent in 0..=400 {
                self.one(&s, table, lent);
            }
        }
    }

    fn meeting(&mut self) {
        for (kind, descriptions, most) in [
            ("tables of up to 3", 3_000, 3),
            ("tables of up to 8", 3_000, 8),
            ("tables of up to 40", 300, 40),
            ("tables of up to 512", 20, 512),
        ] {
            self.kind = kind;
            for i in 0..descriptions {
                let d = meeting_tables(self.rng, most);
                self.tables(&d);
                if i % 8 == 0 {
                    self.propose(&d);
                }
            }
        }
    }

    fn well_formed(&mut self) {
        self.kind = "random descriptions";
        for i in 0..1_000 {
            let size = [Size::SMALL, Size::SMALL, Size::SMALL, Size::MIDDLE][i % 4];
            let d = well_formed(self.rng, size);
            self.tables(&d);
        }
    }

    /// Every bit on a path.
    fn deep(&mut self) {
        self.kind = "96 tests on a path";
        for _ in 0..50 {
            let d = deepest_table(self.rng);
            self.tables(&d);
        }
        for _ in 0..3 {
            let d = deepest_full_table(self.rng);
            self.tables(&d);
            self.propose(&d);
        }
    }

    /// Trees of up to 4,095 nodes, and of more.
    fn limits(&mut self) {
        self.kind = "4,095 nodes and more";
        let any = self.rng.within(LEAST_TESTS..=MOST_TESTS);
        let tests = [MOST_TESTS - 1, MOST_TESTS, MOST_TESTS + 1, MOST_TESTS + 2];
        for tests in [any, LEAST_TESTS].into_iter().chain(tests) {
            let d = table_with_tests(self.rng, tests);
            let built = self.one(&bytes(&d), 0, TREE).map(|tree| tree.len() / 4);
            let fits = tests <= MOST_TESTS;
            assert_eq!(built, fits.then_some(2 * tests + 1), "the reference");
            self.tables(&d);
        }
        let d = largest_tree_table();
        let built = self.one(&bytes(&d), 0, TREE).map(|tree| tree.len());
        assert_eq!(built, Some(TREE), "the reference");
        self.tables(&d);
        self.propose(&d);
    }

    /// As many constructors as may be.
    fn full(&mut self) {
        self.kind = "512 constructors";
        let rng = &mut *self.rng;
        let tables = [
            instruction_set(512),
            nested_instruction_set(512),
            opcode_table(rng, 0x1ff, 512),
            opcode_table(rng, 0xfff, 512),
            opcode_table(rng, 0x1f0f_0f00, 512),
            opcode_table(rng, u64::MAX, 512),
            format_table(rng),
            nested_table(rng),
            subset_table(rng),
        ];
        for d in tables {
            self.tables(&d);
            self.propose(&d);
        }
    }

    fn absent_tables(&mut self) {
        self.kind = "no such table";
        for _ in 0..500 {
            let d = meeting_tables(self.rng, 3);
            let description = bytes(&d);
            let root = d.root();
            let any = self.rng.below(64) as u32;
            for table in [any, root + 1, 64, 256 + root, 65_536 + root, u32::MAX] {
                if d.table(table).is_none() {
                    self.any_room(&description, table);
                }
            }
        }
    }

    fn any_room(&mut self, description: &[u8], table: u32) {
        let any = self.rng.within(3..=400);
        let lent = self.rng.pick(&[0, 1, 2, any, any, TREE]);
        self.one(description, table, lent);
    }

    /// The description's fault comes before all else.
    fn malformed(&mut self) {
        self.kind = "description malformed";
        for (d, changed) in changed_tables(self.rng, 40) {
            self.changed(&d, &changed);
        }
    }

    /// A table that the description had before the change, and one of any
    /// number.
    fn changed(&mut self, before: &Description, changed: &[u8]) {
        let present = self.rng.pick(&before.constructors).table;
        let any = self.rng.below(300) as u32;
        for table in [present.into(), any] {
            self.any_room(changed, table);
        }
    }
}
