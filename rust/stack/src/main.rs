//! Prints how much stack the library's functions use: those that decode on
//! descriptions whose tables are nested to every depth, the others on the
//! largest that they take.

mod nested;
mod painted;

use dookerand::{Answer, LINE, TREE};
use generate::{
    bytes, deep_tree, deepest_full_table, deepest_table, largest_tree_table, longest_of_all,
    tree_bytes, Rng,
};

use nested::{nested, Inner};
use painted::used;

/// Numbers for the most rows of an instruction, bytes for its longest text.
const ROWS: usize = 128;
const TEXT: usize = 256;

/// Any code of a byte or more does.
const CODE: [u8; 16] = [0xfe; 16];

const ALIGNMENT: u32 = 1;

/// The depths that are shown. With a field in the innermost table, 31 is the
/// deepest that has rows for all.
const SHOWN: [usize; 4] = [1, 2, 16, 31];

/// The most tables that are nested in each other before a 33rd row is refused.
const DEEPEST: usize = 33;

/// Bytes of stack that a request on a description uses.
type Request = fn(&[u8]) -> usize;

const REQUESTS: [(&str, Request); 4] = [
    ("decode", decode),
    ("text", text),
    ("sweep", sweep),
    ("list", list),
];

fn main() {
    println!("bytes of stack, tables nested         each");
    print!("request");
    for depth in SHOWN {
        print!("{depth:>7}");
    }
    println!("   more   most");
    for (name, request) in REQUESTS {
        let of = |depth, inner| request(&bytes(&nested(depth, inner)));
        let shown = SHOWN.map(|depth| of(depth, Inner::Field));
        print!("{name:7}");
        for used in shown {
            print!("{used:>7}");
        }
        let (first, last) = (0, SHOWN.len() - 1);
        let more = (shown[last] - shown[first]) / (SHOWN[last] - SHOWN[first]);
        let all = (1..=DEEPEST).flat_map(|depth| Inner::ALL.map(|inner| of(depth, inner)));
        println!("{more:>7}{:>7}", all.fold(0, usize::max));
    }
    println!("Most is of all depths to the one at which a 33rd row is refused.");
    println!("other requests");
    for (name, used) in others() {
        println!("{name:26}{used:>7}");
    }
    println!(
        "A call's stack is counted from its caller's frame to the lowest byte that it writes, with"
    );
    println!("the frame of the Rust wrapper.");
}

fn decode(description: &[u8]) -> usize {
    let mut rows = [0; ROWS];
    of(|| dookerand::decode(description, 0, 0, &CODE, &mut rows))
}

fn text(description: &[u8]) -> usize {
    let mut text = [0; TEXT];
    of(|| dookerand::text(description, 0, 0, &CODE, &mut text))
}

fn sweep(description: &[u8]) -> usize {
    let mut rows = [0; ROWS];
    of(|| dookerand::sweep(description, 0, 0, ALIGNMENT, &CODE, &mut rows))
}

fn list(description: &[u8]) -> usize {
    let mut text = [0; LINE];
    of(|| dookerand::list_answer(description, 0, 0, ALIGNMENT, &CODE, 0, &mut text))
}

fn build(description: &[u8], table: u32) -> usize {
    let mut tree = [0; TREE];
    of(|| dookerand::build(description, table, &mut tree))
}

fn others() -> [(&'static str, usize); 9] {
    let rng = &mut Rng::new(1);
    let (avr, longest) = (avr::description(), bytes(&longest_of_all()));
    let d = reference::check(&avr).expect("it is well formed");
    let root = d.root();
    let (deep, _) = deep_tree(rng, &d, root).expect("the root's tree is small");
    let deep = tree_bytes(&deep);
    let leaf = [1, 0, 0, 0, 0xff, 0xff];
    [
        ("check, longest", of(|| dookerand::check(&longest))),
        ("ask, AVR", of(|| dookerand::ask(&avr, root, 0, &CODE))),
        ("clash, AVR", of(|| dookerand::clash(&avr, root))),
        (
            "tree, AVR, one leaf",
            of(|| dookerand::tree(&avr, root, &leaf)),
        ),
        (
            "tree, AVR, 96 tests deep",
            of(|| dookerand::tree(&avr, root, &deep)),
        ),
        ("build, AVR, refused", build(&avr, root)),
        (
            "build, 96 tests deep",
            build(&bytes(&deepest_table(rng)), 0),
        ),
        (
            "build, 512 at 96 tests",
            build(&bytes(&deepest_full_table(rng)), 0),
        ),
        (
            "build, 4,095 nodes",
            build(&bytes(&largest_tree_table()), 0),
        ),
    ]
}

fn of(mut request: impl FnMut() -> Answer + Send) -> usize {
    // Each has its answer, which a refusal of the description would not.
    used(|| assert_ne!(request().number, 1))
}
