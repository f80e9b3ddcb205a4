//! Building trees.

use std::cell::RefCell;
use std::hint::black_box;
use std::ops::Range;

use dookerand::{Answer, TREE};
use generate::example::description_s;
use generate::{bytes, deepest_full_table, largest_tree_table, nested_table, table_ranges, Rng};
use reference::{requests, Description};

use crate::choosing::{Set, TABLE};
use crate::subjects::avr_description;
use crate::timing::{medians_of, MANY};

/// A table of a description.
struct Case {
    name: &'static str,
    bytes: Vec<u8>,
    table: u32,
    constructors: usize,
    /// Nothing if it is refused.
    nodes: Option<usize>,
}

/// Makes the request of the proved library, and of the reference.
type Jobs<'a> = [Box<dyn Fn(usize) + 'a>; 2];

pub fn print() {
    let cases = cases();
    let jobs: Vec<Jobs> = cases.iter().map(Case::jobs).collect();
    print!("Building trees                               CPU, us");
    println!("                        wall, us");
    print!("description  table  constructors   nodes");
    println!("      proved   reference   ratio      proved   reference");
    for (case, [proved, reference]) in cases.iter().zip(medians_of(&jobs)) {
        let (name, table, constructors) = (case.name, case.table, case.constructors);
        let nodes = case
            .nodes
            .map_or("16".to_string(), |nodes| nodes.to_string());
        let ratio = proved.cpu / reference.cpu;
        print!("{name:13}{table:5}{constructors:14}{nodes:>8}");
        println!(
            "{:>12.3}{:>12.3}{ratio:>8.2}{:>12.3}{:>12.3}",
            proved.cpu, reference.cpu, proved.wall, reference.wall,
        );
    }
    println!(
        "Times are of a whole call, which checks its description and its table first. A table"
    );
    println!("with 16 for its nodes is refused with that: its tree has more than 4,095.");
}

/// Every table of S and AVR, the most nodes, the longest paths, and one that is
/// refused.
fn cases() -> Vec<Case> {
    let rng = &mut Rng::new(1);
    let mut cases = of("S", description_s());
    cases.extend(of("AVR", avr_description()));
    cases.extend(of("most nodes", largest_tree_table()));
    cases.extend(of("96 tests", deepest_full_table(rng)));
    cases.extend(of("nested", nested_table(rng)));
    cases
}

fn of(name: &'static str, d: Description) -> Vec<Case> {
    let bytes = bytes(&d);
    let case = |records: Range<usize>| {
        let table = d.constructors[records.start].table.into();
        Case {
            name,
            bytes: bytes.clone(),
            table,
            constructors: records.len(),
            nodes: reference::build(&d, table).ok().map(|tree| tree.len() / 4),
        }
    };
    table_ranges(&d).into_iter().map(case).collect()
}

impl Case {
    fn jobs(&self) -> Jobs<'_> {
        let [lent, reference_lent] = [(); 2].map(|()| RefCell::new(vec![0; TREE]));
        let expected = match self.nodes {
            Some(_) => 0,
            None => 16,
        };
        [
            Box::new(move |_| {
                let tree = &mut *black_box(lent.borrow_mut());
                let answer = dookerand::build(black_box(&self.bytes), self.table, tree);
                assert_eq!(black_box(answer).number, expected);
            }),
            Box::new(move |_| {
                let tree = &mut *black_box(reference_lent.borrow_mut());
                let answer = requests::build(black_box(&self.bytes), self.table, tree);
                assert_eq!(black_box(answer.number_and_values()).0, expected);
            }),
        ]
    }
}

/// The most nodes, with and without the check of the description.
pub fn all() {
    let set = set();
    let lent = RefCell::new(vec![0; TREE]);
    let proved = |_| {
        let tree = &mut *black_box(lent.borrow_mut());
        let answer = dookerand::build(black_box(&set.bytes), TABLE, tree);
        assert_eq!(black_box(answer).number, 0);
    };
    let whole = |_| {
        let tree = &mut *black_box(lent.borrow_mut());
        let answer = requests::build(black_box(&set.bytes), TABLE, tree);
        assert_eq!(black_box(answer.number_and_values()).0, 0);
    };
    let proper = |_| {
        let tree = reference::build(black_box(&set.description), TABLE);
        assert!(black_box(tree).is_ok());
    };
    let request = "build, 4,095 nodes";
    set.compare(request, (MANY, 1), [&proved, &whole, &proper]);
}

pub fn one_build() -> Answer {
    let mut tree = [0; TREE];
    dookerand::build(black_box(&set().bytes), TABLE, &mut tree)
}

pub fn one_check() -> Answer {
    dookerand::check(black_box(&set().bytes))
}

/// The table with the most nodes, without code.
fn set() -> Set {
    Set::of(largest_tree_table(), (Vec::new(), Vec::new()))
}
