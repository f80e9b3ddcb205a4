//! Proposes a decision tree for each table of a description: prints its size
//! beside that of the tree that `build` gives, and what the proved check says of
//! it. The description is in a file, or comes from standard input.

use std::ffi::OsString;
use std::io::Read;
use std::process::ExitCode;

use dookerand::Answer;
use proposer::{depth, nodes, propose};
use reference::Refusal;

fn main() -> ExitCode {
    let path = std::env::args_os().nth(1);
    let description = match read(path.as_ref()) {
        Ok(description) => description,
        Err(error) => {
            let name = path.unwrap_or("standard input".into());
            eprintln!("{}: {error}", name.display());
            return ExitCode::from(2);
        }
    };
    let d = match reference::check(&description) {
        Ok(d) => d,
        Err(fault) => {
            println!("malformed {} {}", fault.section, fault.record);
            return ExitCode::FAILURE;
        }
    };
    println!("table  constructors    by rule   proposed  depth  proved check");
    let mut all_well = true;
    for table in 0..=d.root() {
        if let Some(records) = d.table(table) {
            print!("{table:5}{:14}", records.len());
            all_well &= print_trees(&description, table);
        }
    }
    match all_well {
        true => ExitCode::SUCCESS,
        false => ExitCode::FAILURE,
    }
}

fn read(path: Option<&OsString>) -> std::io::Result<Vec<u8>> {
    match path {
        Some(path) => std::fs::read(path),
        None => {
            let mut description = Vec::new();
            std::io::stdin().read_to_end(&mut description)?;
            Ok(description)
        }
    }
}

/// Prints what there is to say of a table's trees. False if a proposed one is
/// not accepted.
fn print_trees(description: &[u8], table: u32) -> bool {
    let by_rule = by_rule(description, table);
    let tree = match propose(description, table) {
        Ok(tree) => tree,
        Err(refusal) => {
            println!("{by_rule:>11}  {}", why(refusal));
            return true;
        }
    };
    let (nodes, depth) = (nodes(&tree), depth(&tree));
    let (accepted, says) = verdict(dookerand::tree(description, table, &tree));
    println!("{by_rule:>11}{nodes:>11}{depth:>7}  {says}");
    accepted
}

/// Nodes of the tree that `build` gives, or why it gives none.
fn by_rule(description: &[u8], table: u32) -> String {
    let mut tree = [0; dookerand::TREE];
    let Answer { number, values } = dookerand::build(description, table, &mut tree);
    match number {
        0 => nodes(&tree[..values[0] as usize]).to_string(),
        15 => "clash".to_string(),
        _ => "over 4095".to_string(),
    }
}

/// Why nothing is proposed.
fn why(refusal: Refusal) -> String {
    match refusal {
        Refusal::Clashing(i, j) => format!("constructors {i} and {j} clash"),
        _ => "no tree of up to 4095 nodes was found".to_string(),
    }
}

/// Whether the tree is accepted, in words too.
fn verdict(Answer { number, values }: Answer) -> (bool, String) {
    match (number, values[0]) {
        (0, 0) => (true, "accepted".to_string()),
        (0, _) => (false, format!("leaf {} is wrong", values[1])),
        (_, node) => (false, format!("node {node} is bad")),
    }
}
