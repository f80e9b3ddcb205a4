//! The numbers of docs/AVR.md about decision trees.

use proposer::{nodes, propose};
use reference::{build, check, tree_check, Refusal, Verdict};

const PAGE: &str = include_str!("../../../docs/AVR.md");

/// The cells of the chapter's table, without its head.
fn rows() -> Vec<Vec<&'static str>> {
    let (_, chapter) = PAGE.split_once("## Decision trees").unwrap();
    let rows = chapter.lines().filter(|line| line.starts_with('|'));
    let cells = |line: &'static str| line.trim_matches('|').split('|').map(str::trim).collect();
    rows.skip(2).map(cells).collect()
}

#[test]
fn as_written() {
    let description = avr::description();
    let d = check(&description).unwrap();
    let rows = rows();
    assert_eq!(rows.len(), d.root() as usize + 1);
    for (table, row) in (0..).zip(rows) {
        let built = match build(&d, table) {
            Ok(tree) => nodes(&tree).to_string(),
            // The reference's own tests count these.
            Err(refusal) => {
                assert_eq!((table, refusal), (d.root(), Refusal::TreeTooLarge));
                "31,743".to_string()
            }
        };
        let tree = propose(&description, table).unwrap();
        assert_eq!(tree_check(&d, table, &tree), Ok(Verdict::Accepted));
        let constructors = d.table(table).unwrap().len().to_string();
        let found = [
            table.to_string(),
            constructors,
            built,
            nodes(&tree).to_string(),
        ];
        assert_eq!([row[0], row[2], row[3], row[4]], found.each_ref());
    }
}
