//! The descriptions that every request is timed on, with code and a tree for
//! each.

use generate::example::{description_s, tree_of, TABLE_1};
use generate::{instruction_set, instruction_stream, largest_tree, tree_bytes, Rng};
use reference::{decode, tree_check, Description, Verdict};

use crate::choosing::Set;

/// The most bytes of an instruction.
const INSTRUCTION: usize = 16;

pub struct Subject {
    pub name: &'static str,
    pub set: Set,
    pub context: u32,
    /// The root, which is asked and checked.
    pub table: u32,
    /// A tree for it that is accepted, so that every leaf is looked at.
    pub tree: Vec<u8>,
    /// What the code is.
    code: &'static str,
}

impl Subject {
    /// S, AVR and a set of as many constructors as may be, all in one table;
    /// each with code of at least so many bytes.
    pub fn all(code: usize) -> [Subject; 3] {
        [s(code), avr(code), synthetic(code)]
    }

    /// What the table leaves out.
    pub fn print(&self) {
        let d = &self.set.description;
        let root = d.table(self.table).expect("the root has constructors");
        println!(
            "{}: {} bytes, {} constructors, {} of them in the root; tree of {} nodes, accepted; code: {}",
            self.name,
            self.set.bytes.len(),
            d.constructors.len(),
            root.len(),
            self.tree.len() / 4,
            self.code,
        );
    }
}

fn s(code: usize) -> Subject {
    let d = description_s();
    let stream = instruction_stream(&mut Rng::new(1), &d, 0, code);
    subject("S", d, 0, tree_of(&TABLE_1), stream, PLANTED)
}

fn avr(code: usize) -> Subject {
    let d = avr_description();
    let tree = largest(&d);
    let stream = any_instructions(&d, code);
    subject("AVR", d, 0, tree, stream, "any opcodes that decode")
}

fn synthetic(code: usize) -> Subject {
    let d = instruction_set(512);
    let tree = largest(&d);
    let stream = instruction_stream(&mut Rng::new(1), &d, 1, code);
    subject("512", d, 1, tree, stream, PLANTED)
}

const PLANTED: &str = "each constructor about as often";

fn subject(
    name: &'static str,
    description: Description,
    context: u32,
    tree: Vec<u8>,
    stream: (Vec<u8>, Vec<usize>),
    code: &'static str,
) -> Subject {
    let table = description.root();
    let verdict = tree_check(&description, table, &tree);
    assert_eq!(verdict, Ok(Verdict::Accepted));
    Subject {
        name,
        set: Set::of(description, stream),
        context,
        table,
        tree,
        code,
    }
}

pub fn avr_description() -> Description {
    reference::check(&avr::description()).expect("it is well formed")
}

/// A right tree of the most nodes for the root.
fn largest(d: &Description) -> Vec<u8> {
    let nodes = largest_tree(&mut Rng::new(1), d, d.root());
    tree_bytes(&nodes.expect("the root's smallest tree has fewer nodes"))
}

/// Instructions one after the other, about so many bytes of them, and where
/// they start: random bytes, as far as these decode in context 0.
pub fn any_instructions(d: &Description, bytes: usize) -> (Vec<u8>, Vec<usize>) {
    let rng = &mut Rng::new(1);
    let (mut code, mut starts) = (Vec::new(), Vec::new());
    while code.len() < bytes {
        let any: Vec<u8> = (0..INSTRUCTION).map(|_| rng.byte()).collect();
        if let Ok(rows) = decode(d, 0, 0, &any) {
            starts.push(code.len());
            code.extend(&any[..rows[0][3] as usize]);
        }
    }
    (code, starts)
}
