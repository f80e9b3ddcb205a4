//! What docs/FORMAT.md says: S, a tree and an expression byte by byte, mistakes
//! and their faults, and its examples.

use generate::bytes;
use generate::example::{
    constructor, description_s, expression, field, name, operand, step, tree_of, TABLE_1,
};
use reference::{check, decode, tree_check, Description, Fault, Field, Refusal, Step, Verdict};

const FORMAT: &str = include_str!("../../../docs/FORMAT.md");

/// The lines under a heading of the second level.
fn chapter(heading: &str) -> impl Iterator<Item = &'static str> + '_ {
    let mut lines = FORMAT.lines();
    lines.find(|line| line.strip_prefix("## ") == Some(heading));
    lines.take_while(|line| !line.starts_with("## "))
}

/// The cells of a chapter's table, without its head.
fn table(heading: &str) -> Vec<Vec<&'static str>> {
    chapter(heading)
        .filter(|line| line.starts_with('|'))
        .skip(2)
        .map(|line| line.trim_matches('|').split('|').map(str::trim).collect())
        .collect()
}

fn hex(digits: &str) -> Vec<u8> {
    digits
        .split_whitespace()
        .map(|digits| u8::from_str_radix(digits, 16).unwrap())
        .collect()
}

/// The bytes of a chapter's lines, each of which begins with its place.
fn listed_bytes(heading: &str) -> Vec<u8> {
    let mut listed = Vec::new();
    for line in chapter(heading).filter(|line| line.contains(';')) {
        let Some((place, rest)) = line.split_once(':') else {
            continue;
        };
        if let Ok(place) = place.trim().parse::<usize>() {
            assert_eq!(place, listed.len(), "{line}");
            listed.extend(hex(rest.split(';').next().unwrap()));
        }
    }
    listed
}

#[test]
fn s_byte_by_byte() {
    assert_eq!(listed_bytes("Description S"), bytes(&description_s()));
}

#[test]
fn a_tree_byte_by_byte() {
    let tree = listed_bytes("A tree for table 1 of S");
    assert_eq!(tree, tree_of(&TABLE_1));
    let s = description_s();
    assert_eq!(tree_check(&s, 1, &tree), Ok(Verdict::Accepted));
    match tree_check(&s, 1, &changed(tree, "put 01 at 56")) {
        Ok(Verdict::Rejected { node, bytes, .. }) => assert_eq!((node, bytes[0]), (13, 0x1f)),
        other => panic!("{other:?}"),
    }
}

#[test]
fn an_expression_byte_by_byte() {
    let mut listed = listed_bytes("7 Expression");
    listed.resize(145, 0);
    let mut d = description_s();
    d.expressions.push(expression(&[
        step(Step::ADDRESS_AFTER, 0),
        step(Step::OPERAND, 1),
        step(Step::CONSTANT, 2),
        step(Step::TIMES, 0),
        step(Step::PLUS, 0),
    ]));
    let written = bytes(&d);
    assert_eq!(written[written.len() - 145..], listed);
    assert!(check(&written).is_ok());
}

/// S after changes.
fn changed_s(changes: &str) -> Vec<u8> {
    changed(bytes(&description_s()), changes)
}

/// Bytes after changes such as "put 00 at 18; insert 0F 00 at 20; cut to 215".
fn changed(mut s: Vec<u8>, changes: &str) -> Vec<u8> {
    for change in changes.split("; ") {
        let (verb, rest) = change.split_once(' ').unwrap();
        let (digits, place) = match rest.split_once(" at ") {
            Some((digits, place)) => (digits, place.parse::<usize>().unwrap()),
            None => (rest, s.len()),
        };
        match verb {
            "put" => {
                let new = hex(digits);
                s[place..place + new.len()].copy_from_slice(&new);
            }
            "insert" | "append" => drop(s.splice(place..place, hex(digits))),
            "cut" => s.truncate(digits.strip_prefix("to ").unwrap().parse().unwrap()),
            _ => panic!("unknown change {change}"),
        }
    }
    s
}

#[test]
fn typical_mistakes() {
    let rows = table("Typical mistakes");
    assert!(rows.len() > 25);
    for row in rows {
        let (section, record) = row[2].split_once(", ").unwrap();
        let fault = Fault {
            section: section.parse().unwrap(),
            record: record.parse().unwrap(),
        };
        assert_eq!(check(&changed_s(row[1])), Err(fault), "{}", row[0]);
    }
}

#[test]
fn odd_but_well_formed() {
    let rows = table("Looks like a mistake, but is well formed");
    assert!(rows.len() > 5);
    for row in rows {
        let changed = changed_s(row[1]);
        assert_ne!(changed, bytes(&description_s()), "{}", row[0]);
        assert!(check(&changed).is_ok(), "{}", row[0]);
    }
}

#[test]
fn mistakes_in_a_tree() {
    let rows = table("Mistakes in a tree");
    assert!(rows.len() > 10);
    for row in rows {
        let tree = changed(tree_of(&TABLE_1), row[1]);
        let node = row[2].parse().unwrap();
        let refused = Err(Refusal::BadTree { node });
        assert_eq!(
            tree_check(&description_s(), 1, &tree),
            refused,
            "{}",
            row[0]
        );
    }
}

#[test]
fn an_operand_after_one_of_unknown_length() {
    let d = Description {
        fields: vec![field(0, 1, 0, 0, 7, 1), field(0, 2, 0, 0, 15, 2)],
        constructors: vec![
            constructor(0, 1, (0x80, 0x00), (0, 0), (0, 0)),
            constructor(0, 1, (0x80, 0x80), (0, 1), (0, 0)),
            constructor(1, 1, (0xff, 0x40), (1, 2), (0, 0)),
        ],
        operands: vec![
            operand(0, 0, 0, 1),
            operand(1, 0, 0, 1),
            operand(0, 1, 1, 0),
        ],
        ..Description::default()
    };
    let d = check(&bytes(&d)).unwrap();
    let one_byte = [[0, 2, 0, 4], [0, 0, 1, 1], [1, 1, 2, 0x1234]];
    assert_eq!(decode(&d, 0, 0, &hex("40 05 34 12")).unwrap(), one_byte);
    let two_bytes = [
        [0, 2, 0, 5],
        [0, 1, 1, 2],
        [1, 0, 2, 0x7f],
        [1, 1, 3, 0x1234],
    ];
    assert_eq!(decode(&d, 0, 0, &hex("40 85 7F 34 12")).unwrap(), two_bytes);
}

#[test]
fn a_condition_with_a_hole() {
    let d = Description {
        fields: vec![field(0, 1, 0, 0, 1, Field::NAMES)],
        names: vec![name(0, 2), name(2, 2), name(4, 0), name(4, 2)],
        constructors: vec![constructor(0, 1, (0, 0), (0, 1), (0, 0))],
        operands: vec![operand(0, 0, 0, 0)],
        text: b"eqneal".to_vec(),
        ..Description::default()
    };
    let d = check(&bytes(&d)).unwrap();
    assert_eq!(decode(&d, 0, 0, &[1]).unwrap()[1], [2, 0, 0, 1]);
    assert_eq!(decode(&d, 0, 0, &[2]), Err(Refusal::Hole { place: 0 }));
}
