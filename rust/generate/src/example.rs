//! Fixed descriptions: S of the rules, with a tree of its table 1, a branch with
//! its target, and one that uses every other feature.

use reference::{
    Constructor, Description, Expression, Field, Name, Operand, Pattern, Piece, Step, STEP_LIMIT,
};

use crate::tree::{tree_bytes, Node, NONE};

pub fn field(source: u8, width: u8, order: u8, low: u8, high: u8, look: u8) -> Field {
    Field {
        source,
        width,
        order,
        low,
        high,
        look,
        first_name: 0,
    }
}

pub fn operand(kind: u8, index: u8, anchor: u8, offset: u8) -> Operand {
    Operand {
        kind,
        index,
        anchor,
        offset,
    }
}

/// An operand that this expression computes.
pub fn computed(index: u8) -> Operand {
    operand(Operand::COMPUTED, index, 0, 0)
}

/// A piece that shows text.
pub fn literal(offset: u16, length: u8) -> Piece {
    Piece {
        kind: Piece::TEXT,
        n: length,
        text_offset: offset,
    }
}

/// A piece that shows an operand.
pub fn shown(n: u8) -> Piece {
    Piece {
        kind: Piece::OPERAND,
        n,
        text_offset: 0,
    }
}

pub fn name(text_offset: u16, length: u8) -> Name {
    Name {
        text_offset,
        length,
    }
}

pub fn step(kind: u8, value: i64) -> Step {
    Step { kind, value }
}

/// An expression of these steps, at most 16.
pub fn expression(steps: &[Step]) -> Expression {
    let mut expression = Expression {
        step_count: steps.len() as u8,
        steps: [Step::default(); STEP_LIMIT],
    };
    expression.steps[..steps.len()].copy_from_slice(steps);
    expression
}

/// A constructor without context bits; ranges are (first, count).
pub fn constructor(
    table: u8,
    minimum_length: u8,
    (byte_mask, byte_value): (u64, u64),
    operands: (u16, u8),
    pieces: (u16, u8),
) -> Constructor {
    Constructor {
        table,
        minimum_length,
        pattern: Pattern {
            byte_mask,
            byte_value,
            ..Pattern::default()
        },
        operand_count: operands.1,
        first_operand: operands.0,
        piece_count: pieces.1,
        first_piece: pieces.0,
    }
}

/// Document 01's code for description S, and what its listing shows.
pub const CODE: [u8; 4] = [0x13, 0x30, 0x1f, 0x25];
pub const LINES: [&str; 4] = [
    "00000000: inc r3\n",
    "00000001: .byte 0x30\n",
    "00000002: halt\n",
    "00000003: .short\n",
];

/// Description S.
pub fn description_s() -> Description {
    Description {
        fields: vec![field(0, 1, 0, 0, 3, 0), field(0, 1, 0, 0, 7, 3)],
        names: vec![],
        constructors: vec![
            constructor(0, 1, (0x00, 0x00), (0, 1), (0, 1)),
            constructor(1, 1, (0xf0, 0x10), (1, 1), (1, 2)),
            constructor(1, 1, (0xf0, 0x20), (1, 2), (3, 4)),
            constructor(1, 1, (0xff, 0x1f), (0, 0), (7, 1)),
        ],
        operands: vec![
            operand(0, 1, 0, 0),
            operand(0, 0, 0, 0),
            operand(1, 0, 0, 1),
        ],
        pieces: vec![
            shown(1),
            literal(0, 5),
            shown(1),
            literal(5, 5),
            shown(1),
            literal(10, 2),
            shown(2),
            literal(12, 4),
        ],
        text: b"inc radd r, halt".to_vec(),
        expressions: vec![],
    }
}

/// One instruction of two bytes: 25 and a signed displacement of words. It shows
/// its second operand, which is computed by these steps.
pub fn branch(steps: &[Step]) -> Description {
    Description {
        fields: vec![field(0, 1, 0, 0, 7, Field::SIGNED_HEX)],
        constructors: vec![constructor(0, 2, (0xff, 0x25), (0, 2), (0, 1))],
        operands: vec![
            operand(Operand::FIELD, 0, 0, 1),
            operand(Operand::COMPUTED, 0, 0, 0),
        ],
        pieces: vec![shown(2)],
        expressions: vec![expression(steps)],
        ..Description::default()
    }
}

/// A branch that shows its target: the address after it, plus twice the
/// displacement.
pub fn target() -> Description {
    branch(&[
        step(Step::ADDRESS_AFTER, 0),
        step(Step::OPERAND, 1),
        step(Step::SHIFT_LEFT, 1),
        step(Step::PLUS, 0),
    ])
}

/// The bytes of a tree, from kind, bit and place of each node.
pub fn tree_of(nodes: &[(u8, u8, u16)]) -> Vec<u8> {
    let node = |&(kind, bit, place): &(u8, u8, u16)| Node { kind, bit, place };
    tree_bytes(&nodes.iter().map(node).collect::<Vec<_>>())
}

/// A tree of table 1 of description S, by bits 7 down to 0: kind, bit and
/// place of each node.
pub const TABLE_1: [(u8, u8, u16); 19] = [
    (1, 7, 18),
    (1, 6, 17),
    (1, 5, 14),
    (1, 4, 5),
    (0, 0, NONE),
    (1, 3, 7),
    (0, 0, 1),
    (1, 2, 9),
    (0, 0, 1),
    (1, 1, 11),
    (0, 0, 1),
    (1, 0, 13),
    (0, 0, 1),
    (0, 0, 3),
    (1, 4, 16),
    (0, 0, 2),
    (0, 0, NONE),
    (0, 0, NONE),
    (0, 0, NONE),
];

/// A small description with names, holes, context fields and bits, anchors,
/// shared records, unused records and empty ranges at a section's end.
pub fn full_featured() -> Description {
    let mut d = Description {
        fields: vec![
            field(0, 1, 0, 0, 2, Field::NAMES),
            field(0, 4, 1, 3, 31, Field::SIGNED_HEX),
            field(1, 4, 0, 30, 31, Field::UNSIGNED_DECIMAL),
            field(0, 2, 0, 15, 15, Field::SIGNED_DECIMAL),
            field(1, 4, 0, 0, 1, Field::NAMES),
            field(0, 3, 1, 0, 23, Field::UNSIGNED_HEX),
        ],
        names: (0..12).map(|i| name(i, 1 + i as u8 % 3)).collect(),
        constructors: vec![
            constructor(0, 0, (0, 0), (8, 0), (12, 0)),
            constructor(0, 1, (0x0f, 0x03), (0, 1), (0, 2)),
            constructor(3, 2, (0x80ff, 0x0012), (0, 3), (2, 4)),
            constructor(3, 16, (0xff00_0000_0000_00ff, 0x13), (0, 1), (0, 2)),
            constructor(7, 3, (0xff_0000, 0xaa_0000), (3, 4), (6, 5)),
            constructor(7, 1, (0xf0, 0x50), (8, 0), (12, 0)),
        ],
        operands: vec![
            operand(0, 0, 0, 0),
            operand(0, 2, 0, 0),
            operand(0, 1, 1, 15),
            operand(1, 3, 0, 1),
            operand(1, 0, 1, 0),
            operand(0, 4, 0, 0),
            operand(0, 5, 2, 3),
            operand(1, 200, 77, 5),
        ],
        pieces: vec![
            literal(0, 4),
            shown(1),
            shown(3),
            literal(4, 1),
            shown(1),
            literal(10, 6),
            shown(4),
            shown(2),
            literal(0, 16),
            shown(1),
            shown(3),
            shown(0),
        ],
        text: b"ld st,[mov ]+~ !".to_vec(),
        expressions: vec![],
    };
    d.fields[0].first_name = 4;
    d.fields[4].first_name = 1;
    d.names[2] = name(16, 0);
    d.constructors[3].pattern.context_mask = 0x8000_0001;
    d.constructors[3].pattern.context_value = 0x8000_0000;
    d
}
